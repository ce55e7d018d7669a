//! Each operation, answered by the engine and by the reference: they must agree,
//! and the engine must leave every byte of every buffer as it should be. What is
//! lent stands between other values, and outputs and stores hold something
//! before the call.
//!
//! The answer is the one that both gave. Without the feature `engine` the
//! reference answers alone.

use testing::reference::{self, Kept, Objective, Refusal, Score, Sizes, Summary};

pub fn read(file: &[u8]) -> Result<Summary, Refusal> {
    let expected = reference::read(file);
    #[cfg(feature = "engine")]
    engine::read(file, expected);
    expected
}

/// The engine sizes formulas with a tail alone.
pub fn sizes(file: &[u8], bound: Option<u64>) -> Result<Sizes, Refusal> {
    let expected = reference::sizes(file, bound);
    #[cfg(feature = "engine")]
    if let Some(bound) = bound {
        engine::sizes(file, bound, expected);
    }
    expected
}

pub fn score(file: &[u8], table: &[u8]) -> Result<Score, Refusal> {
    let expected = reference::score(file, table);
    #[cfg(feature = "engine")]
    engine::score(file, table, expected);
    expected
}

pub fn idle_step(kept: Kept, used: u32) -> Kept {
    let expected = reference::idle_step(kept, used);
    #[cfg(feature = "engine")]
    engine::idle_step(kept, used, expected);
    expected
}

pub fn same_sheet(file: &[u8], first: &[u8], second: &[u8]) -> Result<bool, Refusal> {
    let expected = reference::same_sheet(file, first, second);
    #[cfg(feature = "engine")]
    engine::same_sheet(file, first, second, expected);
    expected
}

pub fn text_size(file: &[u8]) -> Result<u64, Refusal> {
    let expected = reference::text_size(file);
    #[cfg(feature = "engine")]
    engine::text_size(file, expected);
    expected
}

pub fn text(file: &[u8], out: &mut [u8]) -> Result<usize, Refusal> {
    #[cfg(feature = "engine")]
    let before = out.to_vec();
    let expected = reference::text(file, out);
    #[cfg(feature = "engine")]
    engine::text(file, &before, out, expected);
    expected
}

/// The text program, which is the text in 65,536 bytes.
pub fn text_program(input: &[u8]) -> Vec<u8> {
    let printed = reference::text_program(input);
    let most = reference::TEXT_PROGRAM_BYTES;
    if input.len() <= most {
        let mut out = vec![0; most];
        match text(input, &mut out) {
            Ok(length) => assert_eq!(printed, out[..length]),
            Err(Refusal { number, value }) => {
                assert_eq!(printed, format!("{number} {value}\n").as_bytes());
            }
        }
    }
    printed
}

pub fn decode<'a>(file: &[u8], model: &'a [u8]) -> Result<(&'a [u8], Objective), Refusal> {
    let expected = reference::decode(file, model);
    #[cfg(feature = "engine")]
    engine::decode(file, model, expected);
    expected
}

/// The lent model and the store have these lengths.
pub fn solver_text(
    file: &[u8],
    text: &[u8],
    model: usize,
    store: usize,
) -> Result<(Vec<u8>, usize, Objective), Refusal> {
    let expected = reference::solver_text(file, text, model, store);
    #[cfg(feature = "engine")]
    engine::solver_text(file, text, [model, store], &expected);
    expected
}

pub fn check(
    file: &[u8],
    bound: u64,
    proof: &[u8],
    words: u64,
    rows: u64,
    bytes: u64,
) -> Result<u64, Refusal> {
    let expected = reference::check(file, bound, proof, words, rows, bytes);
    #[cfg(feature = "engine")]
    engine::check(file, bound, proof, [words, rows, bytes], expected);
    expected
}

pub fn check_hard(file: &[u8], proof: &[u8], lent: [u64; 3]) -> Result<u64, Refusal> {
    let expected = reference::check_hard(file, proof, lent);
    #[cfg(feature = "engine")]
    engine::check_hard(file, proof, lent, expected);
    expected
}

pub fn best(
    file: &[u8],
    model: &[u8],
    proof: &[u8],
    lent: [u64; 3],
) -> Result<(Objective, u64), Refusal> {
    let expected = reference::best(file, model, proof, lent);
    #[cfg(feature = "engine")]
    engine::best(file, model, proof, lent, expected);
    expected
}

/// The engine's calls. Each compares the number, the value, the outputs and the
/// stores with what is expected.
#[cfg(feature = "engine")]
mod engine {
    use std::hint::black_box;
    use testing::generate::Random;
    use testing::reference::{FormulaSize, Kept, Objective, Refusal, Score, Sizes, Summary};
    use timetable::engine;
    use timetable::engine::call::{self, Amounts, Counts, Row};

    pub fn read(file: &[u8], expected: Result<Summary, Refusal>) {
        let mut random = dirt(&[file]);
        let lent = Lent::new(&mut random, file);
        let mut draw = || random.draw();
        let before = Counts {
            times: draw(),
            events: draw(),
            resources: draw(),
            groups: draw(),
            constraints: draw(),
        };
        let mut counts = before;
        let call = |value: &mut u64| call::read(lent.part(), &mut counts, value);
        let value = Value::after(&mut random, call, expected);
        let counts_after = expected.map_or(before, |found| Counts {
            times: found.times as u64,
            events: found.events as u64,
            resources: found.resources as u64,
            groups: found.groups as u64,
            constraints: found.constraints as u64,
        });
        assert_eq!(black_box(counts), counts_after);
        value.assert_kept();
        lent.assert_holds(file);
    }

    pub fn sizes(file: &[u8], bound: u64, expected: Result<Sizes, Refusal>) {
        let mut random = dirt(&[file]);
        let lent = Lent::new(&mut random, file);
        let before = FormulaSize {
            variables: random.draw(),
            clauses: random.draw(),
            words: random.draw(),
        };
        let mut sizes = before;
        let call = |value: &mut u64| call::sizes(lent.part(), bound, &mut sizes, value);
        let value = Value::after(&mut random, call, expected);
        let sizes_after = expected.map_or(before, |found| found.formula());
        assert_eq!(black_box(sizes), sizes_after);
        value.assert_kept();
        lent.assert_holds(file);
    }

    pub fn score(file: &[u8], table: &[u8], expected: Result<Score, Refusal>) {
        let mut random = dirt(&[file, table]);
        let lent = [file, table].map(|part| Lent::new(&mut random, part));
        let before = Amounts {
            infeasibility: random.draw(),
            objective: random.draw(),
        };
        let mut amounts = before;
        let call =
            |value: &mut u64| call::score(lent[0].part(), lent[1].part(), &mut amounts, value);
        let value = Value::after(&mut random, call, expected);
        let amounts_after = expected.map_or(before, |score| Amounts {
            infeasibility: score.infeasibility.0,
            objective: score.objective.0,
        });
        assert_eq!(black_box(amounts), amounts_after);
        value.assert_kept();
        lent[0].assert_holds(file);
        lent[1].assert_holds(table);
    }

    /// The C function, into numbers of its own and into those that it is given, and
    /// the function over it.
    pub fn idle_step(kept: Kept, used: u32, expected: Kept) {
        let numbers = [kept.idle, kept.since, kept.seen, used].map(u32::to_le_bytes);
        let mut random = dirt(&[numbers.as_flattened()]);
        let before = Kept::draw(&mut random);
        let mut lent = Lent::new(&mut random, &[before]);
        call::idle_step(kept, used, &mut lent.part_mut()[0]);
        lent.assert_holds(&[expected]);
        let mut own = kept;
        call::idle_step(own, used, &mut own);
        assert_eq!(black_box(own), expected, "{kept:?}, {used}");
        assert_eq!(engine::idle_step(kept, used != 0), expected);
    }

    pub fn same_sheet(file: &[u8], first: &[u8], second: &[u8], expected: Result<bool, Refusal>) {
        let mut random = dirt(&[file, first, second]);
        let lent = [file, first, second].map(|part| Lent::new(&mut random, part));
        let call = |value: &mut u64| {
            call::same_sheet(lent[0].part(), lent[1].part(), lent[2].part(), value)
        };
        let value = Value::after(&mut random, call, expected);
        value.assert_is(expected.map(u64::from));
        lent[0].assert_holds(file);
        lent[1].assert_holds(first);
        lent[2].assert_holds(second);
    }

    pub fn text_size(file: &[u8], expected: Result<u64, Refusal>) {
        let mut random = dirt(&[file]);
        let lent = Lent::new(&mut random, file);
        let before = random.draw();
        let mut bytes = before;
        let call = |value: &mut u64| call::text_size(lent.part(), &mut bytes, value);
        let value = Value::after(&mut random, call, expected);
        assert_eq!(black_box(bytes), expected.unwrap_or(before));
        value.assert_kept();
        lent.assert_holds(file);
    }

    /// The output holds `before`, and then `after`.
    pub fn text(file: &[u8], before: &[u8], after: &[u8], expected: Result<usize, Refusal>) {
        let mut random = dirt(&[file]);
        let lent = Lent::new(&mut random, file);
        let mut out = Lent::new(&mut random, before);
        let call = |value: &mut u64| call::text(lent.part(), out.part_mut(), value);
        let value = Value::after(&mut random, call, expected);
        value.assert_is(expected.map(|length| length as u64));
        out.assert_holds(after);
        lent.assert_holds(file);
    }

    pub fn decode(file: &[u8], model: &[u8], expected: Result<(&[u8], Objective), Refusal>) {
        let mut random = dirt(&[file, model]);
        let lent = [file, model].map(|part| Lent::new(&mut random, part));
        let before = random.draw();
        let mut objective = before;
        let call =
            |value: &mut u64| call::decode(lent[0].part(), lent[1].part(), &mut objective, value);
        let value = Value::after(&mut random, call, expected);
        assert_eq!(
            black_box(objective),
            expected.map_or(before, |(_, cost)| cost.0)
        );
        value.assert_is(expected.map(|(part, _)| part.len() as u64));
        lent[0].assert_holds(file);
        lent[1].assert_holds(model);
    }

    /// The lent model and the store have these lengths, and hold anything before.
    pub fn solver_text(
        file: &[u8],
        text: &[u8],
        [model, store]: [usize; 2],
        expected: &Result<(Vec<u8>, usize, Objective), Refusal>,
    ) {
        let mut random = dirt(&[file, text]);
        let lent = [file, text].map(|part| Lent::new(&mut random, part));
        let mut model = Lent::<u8>::dirty(&mut random, model as u64);
        let mut store = Lent::<u8>::dirty(&mut random, store as u64);
        let model_before = model.part().to_vec();
        let before = random.draw();
        let mut objective = before;
        let call = |value: &mut u64| {
            call::solver_text(
                lent[0].part(),
                lent[1].part(),
                model.part_mut(),
                store.part_mut(),
                &mut objective,
                value,
            )
        };
        let refusal = expected.as_ref().err().copied();
        let value = Value::after(&mut random, call, refusal.map_or(Ok(()), Err));
        let (model_after, objective_after) = match expected {
            Ok((filled, part, cost)) => {
                value.assert_is(Ok(*part as u64));
                (filled, cost.0)
            }
            Err(_) => (&model_before, before),
        };
        assert_eq!(black_box(objective), objective_after);
        model.assert_holds(model_after);
        store.assert_zero();
        lent[0].assert_holds(file);
        lent[1].assert_holds(text);
    }

    /// The stores have these lengths.
    pub fn check(
        file: &[u8],
        bound: u64,
        proof: &[u8],
        [words, rows, bytes]: [u64; 3],
        expected: Result<u64, Refusal>,
    ) {
        let mut random = dirt(&[file, proof]);
        let lent = [file, proof].map(|part| Lent::new(&mut random, part));
        let mut words = Lent::<u32>::dirty(&mut random, words);
        let mut rows = Lent::<Row>::dirty(&mut random, rows);
        let mut marks = Lent::<u8>::dirty(&mut random, bytes);
        let call = |value: &mut u64| {
            call::check(
                lent[0].part(),
                bound,
                lent[1].part(),
                words.part_mut(),
                rows.part_mut(),
                marks.part_mut(),
                value,
            )
        };
        let value = Value::after(&mut random, call, expected);
        value.assert_is(expected);
        words.assert_zero();
        rows.assert_zero();
        marks.assert_zero();
        lent[0].assert_holds(file);
        lent[1].assert_holds(proof);
    }

    /// The stores have these lengths.
    pub fn check_hard(
        file: &[u8],
        proof: &[u8],
        [words, rows, bytes]: [u64; 3],
        expected: Result<u64, Refusal>,
    ) {
        let mut random = dirt(&[file, proof]);
        let lent = [file, proof].map(|part| Lent::new(&mut random, part));
        let mut words = Lent::<u32>::dirty(&mut random, words);
        let mut rows = Lent::<Row>::dirty(&mut random, rows);
        let mut marks = Lent::<u8>::dirty(&mut random, bytes);
        let call = |value: &mut u64| {
            call::check_hard(
                lent[0].part(),
                lent[1].part(),
                words.part_mut(),
                rows.part_mut(),
                marks.part_mut(),
                value,
            )
        };
        let value = Value::after(&mut random, call, expected);
        value.assert_is(expected);
        words.assert_zero();
        rows.assert_zero();
        marks.assert_zero();
        lent[0].assert_holds(file);
        lent[1].assert_holds(proof);
    }

    /// The stores have these lengths.
    pub fn best(
        file: &[u8],
        model: &[u8],
        proof: &[u8],
        [words, rows, bytes]: [u64; 3],
        expected: Result<(Objective, u64), Refusal>,
    ) {
        let inputs = [file, model, proof];
        let mut random = dirt(&inputs);
        let lent = inputs.map(|part| Lent::new(&mut random, part));
        let mut words = Lent::<u32>::dirty(&mut random, words);
        let mut rows = Lent::<Row>::dirty(&mut random, rows);
        let mut marks = Lent::<u8>::dirty(&mut random, bytes);
        let before = random.draw();
        let mut objective = before;
        let call = |value: &mut u64| {
            call::best(
                lent[0].part(),
                lent[1].part(),
                lent[2].part(),
                words.part_mut(),
                rows.part_mut(),
                marks.part_mut(),
                &mut objective,
                value,
            )
        };
        let value = Value::after(&mut random, call, expected);
        value.assert_is(expected.map(|(_, steps)| steps));
        let objective_after = expected.map_or(before, |(cost, _)| cost.0);
        assert_eq!(black_box(objective), objective_after);
        words.assert_zero();
        rows.assert_zero();
        marks.assert_zero();
        for (lent, input) in lent.iter().zip(inputs) {
            lent.assert_holds(input);
        }
    }

    /// `*value` before and after a call.
    struct Value {
        before: u64,
        after: u64,
        refused: bool,
    }

    impl Value {
        /// Makes the call, and compares the number and a refusal's value with
        /// the answer expected.
        fn after<T>(
            random: &mut Random,
            call: impl FnOnce(&mut u64) -> u32,
            expected: Result<T, Refusal>,
        ) -> Value {
            let before = random.draw();
            let mut after = before;
            let number = call(&mut after);
            let after = black_box(after);
            let refused = expected.err();
            assert_eq!(number, refused.map_or(0, |refusal| refusal.number));
            if let Some(refusal) = refused {
                assert_eq!(after, refusal.value);
            }
            Value {
                before,
                after,
                refused: refused.is_some(),
            }
        }

        /// An accepted call left it alone.
        fn assert_kept(&self) {
            assert!(self.refused || self.after == self.before);
        }

        /// An accepted call left this there.
        fn assert_is(&self, expected: Result<u64, Refusal>) {
            if let Ok(value) = expected {
                assert_eq!(self.after, value);
            }
        }
    }

    /// A generator of what stands around and in buffers, from the inputs.
    fn dirt(inputs: &[&[u8]]) -> Random {
        let mix = |hash: u64, byte: &u8| (hash ^ u64::from(*byte)).wrapping_mul(0x100_0000_01b3);
        Random::new(inputs.concat().iter().fold(0xcbf2_9ce4_8422_2325, mix))
    }

    /// What a buffer holds.
    trait Element: Copy + Default + PartialEq {
        fn draw(random: &mut Random) -> Self;
    }

    impl Element for u8 {
        fn draw(random: &mut Random) -> u8 {
            random.draw() as u8
        }
    }

    impl Element for u32 {
        fn draw(random: &mut Random) -> u32 {
            random.draw() as u32
        }
    }

    impl Element for Row {
        fn draw(random: &mut Random) -> Row {
            let mut draw = || random.draw() as u32;
            Row {
                id: draw(),
                first: draw(),
                length: draw(),
                live: draw(),
            }
        }
    }

    impl Element for Kept {
        fn draw(random: &mut Random) -> Kept {
            let mut draw = || random.draw() as u32;
            Kept {
                idle: draw(),
                since: draw(),
                seen: draw(),
            }
        }
    }

    /// A buffer that is lent, with other values around it that no call may change.
    struct Lent<T> {
        all: Vec<T>,
        /// What stands before the lent part, then what stands after it.
        margins: [Vec<T>; 2],
    }

    /// How many values stand before a lent part, and as many after it.
    const MARGIN: usize = 16;

    impl<T: Element> Lent<T> {
        /// `part` between values drawn at random.
        fn new(random: &mut Random, part: &[T]) -> Lent<T> {
            Lent::between(random, part.len(), part)
        }

        /// `length` values drawn at random, which repeat themselves.
        fn dirty(random: &mut Random, length: u64) -> Lent<T> {
            let values = drawn(random, 61);
            Lent::between(random, length as usize, values.iter().cycle())
        }

        fn between<'a>(
            random: &mut Random,
            length: usize,
            part: impl IntoIterator<Item = &'a T>,
        ) -> Lent<T>
        where
            T: 'a,
        {
            let margins = [(); 2].map(|()| drawn(random, MARGIN));
            let mut all = Vec::with_capacity(length + 2 * MARGIN);
            all.extend(&margins[0]);
            all.extend(part.into_iter().take(length));
            all.extend(&margins[1]);
            Lent { all, margins }
        }

        fn part(&self) -> &[T] {
            &self.all[MARGIN..self.all.len() - MARGIN]
        }

        fn part_mut(&mut self) -> &mut [T] {
            let end = self.all.len() - MARGIN;
            &mut self.all[MARGIN..end]
        }

        /// The part is `expected`, and what stands around it is as it was.
        fn assert_holds(&self, expected: &[T]) {
            assert!(self.part() == expected, "wrong bytes in a buffer");
            self.assert_margins_kept();
        }

        /// Every value of a store is zero, and what stands around it is as it was.
        fn assert_zero(&self) {
            let zero = T::default();
            assert!(
                self.part().iter().all(|value| *value == zero),
                "a store is not zero"
            );
            self.assert_margins_kept();
        }

        fn assert_margins_kept(&self) {
            let all = black_box(&self.all);
            let [before, after] = &self.margins;
            assert!(
                all.starts_with(before) && all.ends_with(after),
                "bytes beside a buffer changed"
            );
        }
    }

    fn drawn<T: Element>(random: &mut Random, count: usize) -> Vec<T> {
        (0..count).map(|_| T::draw(random)).collect()
    }
}
