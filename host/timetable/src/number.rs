//! Numbers as files and proofs hold them: groups of seven bits, the lowest
//! first, with bit 7 set on each byte but the last; in shortest form, at most
//! 4,294,967,295.

const MORE: u8 = 0x80;

/// The number that starts at `offset`, with the offset after it; none if it is
/// cut short, overlong or too large.
pub fn read_number(bytes: &[u8], offset: usize) -> Option<(u32, usize)> {
    let mut value = 0u32;
    let mut shift = 0;
    let mut at = offset;
    loop {
        let byte = *bytes.get(at)?;
        at += 1;
        let group = u32::from(byte & !MORE);
        let shifted = group.checked_shl(shift)?;
        if shifted >> shift != group {
            return None; // too large
        }
        value |= shifted;
        if byte & MORE == 0 {
            let overlong = group == 0 && shift > 0;
            return (!overlong).then_some((value, at));
        }
        shift += 7;
    }
}

/// Appends `value` in its shortest form.
pub fn write_number(mut value: u32, out: &mut Vec<u8>) {
    while value >= u32::from(MORE) {
        out.push(value as u8 | MORE);
        value >>= 7;
    }
    out.push(value as u8);
}
