//! Numbers in groups of seven bits, lowest first, the top bit set on all bytes
//! but the last, in shortest form, at most 4,294,967,295.

/// The number that starts at `offset`, with the offset after it. None if it is
/// cut short, overlong or too large.
pub fn read_number(bytes: &[u8], offset: usize) -> Option<(u32, usize)> {
    let mut value = 0u64;
    for (place, &byte) in bytes.get(offset..)?.iter().take(5).enumerate() {
        value |= u64::from(byte & 0x7f) << (7 * place);
        if byte < 0x80 {
            if place > 0 && byte == 0 {
                return None; // overlong
            }
            return Some((u32::try_from(value).ok()?, offset + place + 1));
        }
    }
    None // cut short, or more than five bytes
}

/// Appends `value` in shortest form.
pub fn write_number(mut value: u32, out: &mut Vec<u8>) {
    while value >= 0x80 {
        out.push(value as u8 | 0x80);
        value >>= 7;
    }
    out.push(value as u8);
}
