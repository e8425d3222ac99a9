//! Numbers are spelled in groups of seven bits, the lowest group first.

const GROUPS: usize = 6;

/// Returns the number at a place and the place after it, or none where it is misspelled, too long or cut off.
pub fn read(bytes: &[u8], at: usize) -> Option<(u64, usize)> {
    let mut value = 0;
    for i in 0..GROUPS {
        let byte = *bytes.get(at + i)?;
        value |= u64::from(byte & 127) << (7 * i);
        if byte < 128 {
            if i > 0 && byte == 0 {
                return None;
            }
            return Some((value, at + i + 1));
        }
    }
    None
}

/// Returns the bad byte of a number that can't be read. It is looked for only then, so that reading costs nothing more.
#[cold]
pub fn bad_byte(bytes: &[u8], at: usize) -> usize {
    let mut bad = at;
    while bad < at + GROUPS - 1 && bad < bytes.len() && bytes[bad] >= 128 {
        bad += 1;
    }
    bad
}

/// Writes a number at the start of a buffer, and returns the length of its spelling.
pub fn write(buffer: &mut [u8], mut value: u64) -> usize {
    let mut i = 0;
    while value >= 128 {
        buffer[i] = value as u8 | 128;
        value >>= 7;
        i += 1;
    }
    buffer[i] = value as u8;
    i + 1
}
