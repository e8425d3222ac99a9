//! The spelling of numbers. A number is spelled in groups of seven bits, one group a byte, the lowest group first. The
//! top bit of a byte is set when another byte of the same number follows.

use crate::refusal::{Reason, Refusal};

pub const MOST_GROUPS: usize = 6;
pub const LARGEST: u64 = (1 << (7 * MOST_GROUPS)) - 1;

/// The number that starts at `place`, and the place after it. A refusal points at the byte that is wrong: the sixth
/// group where it asks for more, or a last group of zero after others. A number that is cut off or missing, or that
/// starts past the end, has no such byte, and the refusal points at the end of the bytes (2.7, 2.8, 2.9).
pub fn read(bytes: &[u8], place: usize) -> Result<(u64, usize), Refusal> {
    let misspelled_at = |bad| Err(Reason::Misspelled.at(bad));
    let rest = bytes.get(place..).unwrap_or(&[]);
    let groups = &rest[..rest.len().min(MOST_GROUPS)];
    match groups.iter().position(|byte| byte & 0x80 == 0) {
        None if groups.len() == MOST_GROUPS => misspelled_at(place + MOST_GROUPS - 1),
        None => misspelled_at(bytes.len()),
        Some(last) if last > 0 && groups[last] == 0 => misspelled_at(place + last),
        Some(last) => {
            let number = groups[..=last].iter().rev().fold(0, |higher, byte| higher << 7 | u64::from(byte & 0x7f));
            Ok((number, place + last + 1))
        }
    }
}

/// Returns the one spelling of a number.
pub fn spell(number: u64) -> Result<Vec<u8>, Reason> {
    if number > LARGEST {
        return Err(Reason::NumberTooBig);
    }
    let mut bytes = vec![];
    let mut rest = number;
    while rest >= 0x80 {
        bytes.push(0x80 | (rest & 0x7f) as u8);
        rest >>= 7;
    }
    bytes.push(rest as u8);
    Ok(bytes)
}

/// Writes a number's spelling at the start of a buffer and returns its length. A refusal leaves the buffer unchanged.
pub fn write(number: u64, buffer: &mut [u8]) -> Result<usize, Reason> {
    let bytes = spell(number)?;
    let start = buffer.get_mut(..bytes.len()).ok_or(Reason::NoRoom)?;
    start.copy_from_slice(&bytes);
    Ok(bytes.len())
}

#[cfg(test)]
mod tests {
    use super::*;

    fn misspelled_at(place: usize) -> Result<(u64, usize), Refusal> {
        Err(Reason::Misspelled.at(place))
    }

    #[test]
    fn reads_the_examples() {
        assert_eq!(read(&[0x00], 0), Ok((0, 1)));
        assert_eq!(read(&[0xac, 0x02], 0), Ok((300, 2)));
        assert_eq!(read(&[0xff, 0xac, 0x02, 0xff], 1), Ok((300, 3)));
        assert_eq!(read(&[0xff, 0xff, 0xff, 0xff, 0xff, 0x7f], 0), Ok((LARGEST, 6)));
    }

    #[test]
    fn refuses_a_superfluous_zero_group_at_its_byte() {
        assert_eq!(read(&[0x80, 0x00], 0), misspelled_at(1));
        assert_eq!(read(&[0x80, 0x00, 0x01], 0), misspelled_at(1));
        assert_eq!(read(&[0x05, 0xac, 0x82, 0x00], 1), misspelled_at(3));
        assert_eq!(read(&[0x80, 0x80, 0x80, 0x80, 0x80, 0x00], 0), misspelled_at(5));
        assert_eq!(read(&[0x80, 0x80, 0x80, 0x80, 0x80, 0x00, 0x01], 0), misspelled_at(5));
    }

    #[test]
    fn refuses_a_sixth_group_that_asks_for_more_at_its_byte() {
        assert_eq!(read(&[0x81, 0x81, 0x81, 0x81, 0x81, 0x81, 0x01], 0), misspelled_at(5));
        assert_eq!(read(&[0x81, 0x81, 0x81, 0x81, 0x81, 0x81, 0x00], 0), misspelled_at(5));
        assert_eq!(read(&[0x07, 0x80, 0x80, 0x80, 0x80, 0x80, 0x80], 1), misspelled_at(6));
        assert_eq!(read(&[0xff; 6], 0), misspelled_at(5));
        assert_eq!(read(&[0xff; 20], 3), misspelled_at(8));
    }

    #[test]
    fn refuses_a_cut_at_the_end_of_the_bytes() {
        assert_eq!(read(&[0x80, 0x80, 0x80, 0x80, 0x80], 0), misspelled_at(5));
        assert_eq!(read(&[0x07, 0x80, 0x80, 0x80, 0x80, 0x80], 1), misspelled_at(6));
        assert_eq!(read(&[0x81], 0), misspelled_at(1));
        assert_eq!(read(&[0x05, 0x81, 0x81], 1), misspelled_at(3));
    }

    #[test]
    fn refuses_a_missing_number_and_a_place_past_the_end_at_the_end_of_the_bytes() {
        assert_eq!(read(&[], 0), misspelled_at(0));
        assert_eq!(read(&[0x07], 1), misspelled_at(1));
        assert_eq!(read(&[0x07], 2), misspelled_at(1));
        assert_eq!(read(&[0x07], 9), misspelled_at(1));
        assert_eq!(read(&[0x07, 0x07], usize::MAX), misspelled_at(2));
        assert_eq!(read(&[], 1), misspelled_at(0));
    }

    /// The same rule, group by group: a number is read on until a byte settles it.
    fn read_by_groups(bytes: &[u8], start: usize) -> Result<(u64, usize), Refusal> {
        let mut number = 0;
        let mut place = start;
        loop {
            let Some(&byte) = bytes.get(place) else { return misspelled_at(bytes.len()) };
            let group = place - start;
            number += u64::from(byte % 128) * 128u64.pow(group as u32);
            match (byte, group) {
                (128.., 5) | (0, 1..) => return misspelled_at(place),
                (128.., _) => place += 1,
                _ => return Ok((number, place + 1)),
            }
        }
    }

    #[test]
    fn agrees_with_a_reader_by_groups_on_every_pattern_of_telling_bytes() {
        let telling = [0x00, 0x01, 0x7f, 0x80, 0xff];
        for length in 0..=8 {
            for pattern in 0..5usize.pow(length) {
                let bytes: Vec<u8> = (0..length).map(|place| telling[pattern / 5usize.pow(place) % 5]).collect();
                assert_eq!(read(&bytes, 0), read_by_groups(&bytes, 0), "{bytes:x?}");
                assert_eq!(read(&bytes, 1), read_by_groups(&bytes, 1), "{bytes:x?} from 1");
            }
        }
    }

    #[test]
    fn writes_what_it_reads() {
        let near_each_length = (0..=6).flat_map(|groups| {
            let first_longer = 1u64 << (7 * groups);
            [first_longer - 1, first_longer]
        });
        for number in near_each_length.filter(|&number| number <= LARGEST) {
            let bytes = spell(number).unwrap();
            assert_eq!(read(&bytes, 0), Ok((number, bytes.len())));
        }
    }

    #[test]
    fn every_short_spelling_is_the_one_spelling() {
        for bytes in (0..=0xffff_u16).map(u16::to_le_bytes) {
            if let Ok((number, length)) = read(&bytes, 0) {
                assert_eq!(spell(number).unwrap(), bytes[..length]);
            }
        }
    }

    #[test]
    fn the_writer_refuses_25_before_12_and_keeps_the_buffer() {
        let mut buffer = [7; 5];
        assert_eq!(write(LARGEST + 1, &mut []), Err(Reason::NumberTooBig));
        assert_eq!(write(LARGEST + 1, &mut buffer), Err(Reason::NumberTooBig));
        assert_eq!(write(LARGEST, &mut buffer), Err(Reason::NoRoom));
        assert_eq!(buffer, [7; 5]);
        assert_eq!(write(0, &mut []), Err(Reason::NoRoom));
        assert_eq!(write(300, &mut buffer), Ok(2));
        assert_eq!(buffer, [0xac, 0x02, 7, 7, 7]);
    }
}
