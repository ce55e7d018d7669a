//! The C functions of `include/timetable.h`, each behind a safe function.
//!
//! A reference is what C's comments ask of a pointer: it is not null, it is
//! aligned, it is good for as many elements as are said, and no other pointer
//! of the call reaches what a `&mut` reaches. So every call here is sound.

use super::answers::{FormulaSize, Kept};

/// What an accepted instance has.
#[derive(Clone, Copy, Debug, Default, PartialEq, Eq)]
pub struct Counts {
    pub times: u64,
    pub events: u64,
    pub resources: u64,
    pub groups: u64,
    pub constraints: u64,
}

/// 0 with the counts written, or 1 to 6, 19, 22 with `value` written.
pub fn read(file: &[u8], counts: &mut Counts, value: &mut u64) -> u32 {
    // SAFETY: see the head of this file; the fields of `counts` do not overlap.
    unsafe {
        c::timetable_read(
            file.as_ptr(),
            file.len(),
            &mut counts.times,
            &mut counts.events,
            &mut counts.resources,
            &mut counts.groups,
            &mut counts.constraints,
            value,
        )
    }
}

/// 0 with the sizes written, or 1 to 8, 19, 22 with `value` written.
pub fn sizes(file: &[u8], bound: u64, sizes: &mut FormulaSize, value: &mut u64) -> u32 {
    // SAFETY: see the head of this file; the fields of `sizes` do not overlap.
    unsafe {
        c::timetable_sizes(
            file.as_ptr(),
            file.len(),
            bound,
            &mut sizes.variables,
            &mut sizes.clauses,
            &mut sizes.words,
            value,
        )
    }
}

/// What a timetable is charged.
#[derive(Clone, Copy, Debug, Default, PartialEq, Eq)]
pub struct Amounts {
    pub infeasibility: u64,
    pub objective: u64,
}

/// 0 with the amounts written, or 1 to 6, 10 to 12, 19, 22 with `value` written.
pub fn score(file: &[u8], table: &[u8], amounts: &mut Amounts, value: &mut u64) -> u32 {
    // SAFETY: see the head of this file; the fields of `amounts` do not overlap.
    unsafe {
        c::timetable_score(
            file.as_ptr(),
            file.len(),
            table.as_ptr(),
            table.len(),
            &mut amounts.infeasibility,
            &mut amounts.objective,
            value,
        )
    }
}

/// `next` with what is kept after one more member; `used`, whether it has X, is no
/// if 0 and else yes. No value is refused.
pub fn idle_step(kept: Kept, used: u32, next: &mut Kept) {
    // SAFETY: see the head of this file; the fields of `next` do not overlap.
    unsafe {
        c::timetable_idle_step(
            kept.idle,
            kept.since,
            kept.seen,
            used,
            &mut next.idle,
            &mut next.since,
            &mut next.seen,
        )
    }
}

/// 0 with 1 or 0 in `value`, or 1 to 6, 10 to 12, 19, 22 with `value` written.
pub fn same_sheet(file: &[u8], first: &[u8], second: &[u8], value: &mut u64) -> u32 {
    // SAFETY: see the head of this file.
    unsafe {
        c::timetable_same_sheet(
            file.as_ptr(),
            file.len(),
            first.as_ptr(),
            first.len(),
            second.as_ptr(),
            second.len(),
            value,
        )
    }
}

/// 0 with the text's length in `bytes`, or 1 to 6, 8, 19, 22 with `value` written.
pub fn text_size(file: &[u8], bytes: &mut u64, value: &mut u64) -> u32 {
    // SAFETY: see the head of this file.
    unsafe { c::timetable_text_size(file.as_ptr(), file.len(), bytes, value) }
}

/// 0 with the text at the front of `out` and its length in `value`, or 1 to 6,
/// 8, 9, 19, 22 with `value` written.
pub fn text(file: &[u8], out: &mut [u8], value: &mut u64) -> u32 {
    // SAFETY: see the head of this file.
    unsafe {
        c::timetable_text(
            file.as_ptr(),
            file.len(),
            out.as_mut_ptr(),
            out.len(),
            value,
        )
    }
}

/// 0 with the cost in `objective` and in `value` how many bytes of the model,
/// from its first, are the timetable; or 1 to 6, 8, 10, 11, 13, 19, 22 with
/// `value` written.
pub fn decode(file: &[u8], model: &[u8], objective: &mut u64, value: &mut u64) -> u32 {
    // SAFETY: see the head of this file.
    unsafe {
        c::timetable_decode(
            file.as_ptr(),
            file.len(),
            model.as_ptr(),
            model.len(),
            objective,
            value,
        )
    }
}

/// 0 with the model filled from a solver's text, its cost in `objective` and in
/// `value` how many of its bytes, from its first, are the timetable; or 1 to 6,
/// 8 to 10, 13, 19 to 22 with `value` written. The store is zero after it.
pub fn solver_text(
    file: &[u8],
    text: &[u8],
    model: &mut [u8],
    store: &mut [u8],
    objective: &mut u64,
    value: &mut u64,
) -> u32 {
    // SAFETY: see the head of this file.
    unsafe {
        c::timetable_solver_text(
            file.as_ptr(),
            file.len(),
            text.as_ptr(),
            text.len(),
            model.as_mut_ptr(),
            model.len(),
            store.as_mut_ptr(),
            store.len(),
            objective,
            value,
        )
    }
}

/// A row of the directory of clauses, C's `struct timetable_row`.
#[repr(C)]
#[derive(Clone, Copy, Debug, Default, PartialEq, Eq)]
pub struct Row {
    pub id: u32,
    pub first: u32,
    pub length: u32,
    pub live: u32,
}

/// 0 with the number of steps in `value`, which is the answer "no timetable",
/// or 1 to 9, 14 to 19, 22 with `value` written. The stores are zero after it.
pub fn check(
    file: &[u8],
    bound: u64,
    proof: &[u8],
    words: &mut [u32],
    rows: &mut [Row],
    marks: &mut [u8],
    value: &mut u64,
) -> u32 {
    // SAFETY: see the head of this file; a `Row` is laid out as C's struct.
    unsafe {
        c::timetable_check(
            file.as_ptr(),
            file.len(),
            bound,
            proof.as_ptr(),
            proof.len(),
            words.as_mut_ptr(),
            words.len(),
            rows.as_mut_ptr(),
            rows.len(),
            marks.as_mut_ptr(),
            marks.len(),
            value,
        )
    }
}

/// 0 with the number of steps in `value`, which is the answer that no timetable
/// keeps the hard constraints, or 1 to 6, 8, 9, 14 to 19, 22 with `value` written.
/// The stores are zero after it.
pub fn check_hard(
    file: &[u8],
    proof: &[u8],
    words: &mut [u32],
    rows: &mut [Row],
    marks: &mut [u8],
    value: &mut u64,
) -> u32 {
    // SAFETY: see the head of this file; a `Row` is laid out as C's struct.
    unsafe {
        c::timetable_check_hard(
            file.as_ptr(),
            file.len(),
            proof.as_ptr(),
            proof.len(),
            words.as_mut_ptr(),
            words.len(),
            rows.as_mut_ptr(),
            rows.len(),
            marks.as_mut_ptr(),
            marks.len(),
            value,
        )
    }
}

/// 0 with the model's cost in `objective` and the number of steps in `value`,
/// which is the answer that nothing costs less, or 1 to 11, 13 to 19, 22 with
/// `value` written. The stores are zero after it.
#[allow(clippy::too_many_arguments)]
pub fn best(
    file: &[u8],
    model: &[u8],
    proof: &[u8],
    words: &mut [u32],
    rows: &mut [Row],
    marks: &mut [u8],
    objective: &mut u64,
    value: &mut u64,
) -> u32 {
    // SAFETY: see the head of this file; a `Row` is laid out as C's struct.
    unsafe {
        c::timetable_best(
            file.as_ptr(),
            file.len(),
            model.as_ptr(),
            model.len(),
            proof.as_ptr(),
            proof.len(),
            words.as_mut_ptr(),
            words.len(),
            rows.as_mut_ptr(),
            rows.len(),
            marks.as_mut_ptr(),
            marks.len(),
            objective,
            value,
        )
    }
}

/// The declarations of `include/timetable.h`.
mod c {
    use super::Row;

    extern "C" {
        pub fn timetable_read(
            file: *const u8,
            file_length: usize,
            times: *mut u64,
            events: *mut u64,
            resources: *mut u64,
            groups: *mut u64,
            constraints: *mut u64,
            value: *mut u64,
        ) -> u32;

        pub fn timetable_sizes(
            file: *const u8,
            file_length: usize,
            bound: u64,
            variables: *mut u64,
            clauses: *mut u64,
            words: *mut u64,
            value: *mut u64,
        ) -> u32;

        pub fn timetable_score(
            file: *const u8,
            file_length: usize,
            table: *const u8,
            table_length: usize,
            infeasibility: *mut u64,
            objective: *mut u64,
            value: *mut u64,
        ) -> u32;

        pub fn timetable_idle_step(
            idle: u32,
            since: u32,
            seen: u32,
            used: u32,
            next_idle: *mut u32,
            next_since: *mut u32,
            next_seen: *mut u32,
        );

        pub fn timetable_same_sheet(
            file: *const u8,
            file_length: usize,
            first: *const u8,
            first_length: usize,
            second: *const u8,
            second_length: usize,
            value: *mut u64,
        ) -> u32;

        pub fn timetable_text_size(
            file: *const u8,
            file_length: usize,
            bytes: *mut u64,
            value: *mut u64,
        ) -> u32;

        pub fn timetable_text(
            file: *const u8,
            file_length: usize,
            out: *mut u8,
            out_length: usize,
            value: *mut u64,
        ) -> u32;

        pub fn timetable_decode(
            file: *const u8,
            file_length: usize,
            model: *const u8,
            model_length: usize,
            objective: *mut u64,
            value: *mut u64,
        ) -> u32;

        pub fn timetable_solver_text(
            file: *const u8,
            file_length: usize,
            text: *const u8,
            text_length: usize,
            model: *mut u8,
            model_length: usize,
            store: *mut u8,
            store_length: usize,
            objective: *mut u64,
            value: *mut u64,
        ) -> u32;

        pub fn timetable_check(
            file: *const u8,
            file_length: usize,
            bound: u64,
            proof: *const u8,
            proof_length: usize,
            words: *mut u32,
            words_length: usize,
            rows: *mut Row,
            rows_length: usize,
            marks: *mut u8,
            marks_length: usize,
            value: *mut u64,
        ) -> u32;

        pub fn timetable_check_hard(
            file: *const u8,
            file_length: usize,
            proof: *const u8,
            proof_length: usize,
            words: *mut u32,
            words_length: usize,
            rows: *mut Row,
            rows_length: usize,
            marks: *mut u8,
            marks_length: usize,
            value: *mut u64,
        ) -> u32;

        pub fn timetable_best(
            file: *const u8,
            file_length: usize,
            model: *const u8,
            model_length: usize,
            proof: *const u8,
            proof_length: usize,
            words: *mut u32,
            words_length: usize,
            rows: *mut Row,
            rows_length: usize,
            marks: *mut u8,
            marks_length: usize,
            objective: *mut u64,
            value: *mut u64,
        ) -> u32;
    }
}
