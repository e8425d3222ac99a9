//! Scripts. A script is records of three numbers: the gap, the row number and the cost.

use crate::numbers;
use crate::refusal::{Reason, Refusal};

#[derive(Clone, Copy, Debug, PartialEq, Eq)]
pub struct Record {
    pub gap: u64,
    pub row: u64,
    pub cost: u64,
    /// This is the place right after the record.
    pub after: usize,
}

/// One number of a script, and the place after it. The place of a refusal is that of the number reader (2.10).
pub fn number(script: &[u8], place: usize) -> Result<(u64, usize), Refusal> {
    numbers::read(script, place).map_err(|refusal| Reason::ScriptMisspelled.at(refusal.place))
}

/// The record at a place, of which only the spelling is looked at; none at the script's end. Past the end its first
/// number can't be read.
pub fn record(script: &[u8], place: usize) -> Result<Option<Record>, Refusal> {
    if place == script.len() {
        return Ok(None);
    }
    let (gap, place) = number(script, place)?;
    let (row, place) = number(script, place)?;
    let (cost, after) = number(script, place)?;
    Ok(Some(Record { gap, row, cost, after }))
}

#[cfg(test)]
mod tests {
    use super::*;

    #[test]
    fn yields_one_record_at_a_time() {
        let script = [0, 0, 2, 0xac, 0x02, 1, 3];
        assert_eq!(record(&script, 0), Ok(Some(Record { gap: 0, row: 0, cost: 2, after: 3 })));
        assert_eq!(record(&script, 3), Ok(Some(Record { gap: 300, row: 1, cost: 3, after: 7 })));
        assert_eq!(record(&script, 7), Ok(None));
        assert_eq!(record(&[], 0), Ok(None));
    }

    fn misspelled_at(place: usize) -> Result<Option<Record>, Refusal> {
        Err(Reason::ScriptMisspelled.at(place))
    }

    #[test]
    fn a_bad_byte_is_14_at_its_place() {
        assert_eq!(record(&[0x80, 0x00, 0, 1], 0), misspelled_at(1));
        assert_eq!(record(&[0, 0x80, 0x00, 1], 0), misspelled_at(2));
        assert_eq!(record(&[0, 0, 0x81, 0x80, 0x00], 0), misspelled_at(4));
        assert_eq!(record(&[0, 0, 1, 0, 0x80, 0x00, 1], 3), misspelled_at(5));
        assert_eq!(record(&[0, 0x80, 0x80, 0x80, 0x80, 0x80, 0x80, 1], 0), misspelled_at(6));
        assert_eq!(record(&[0, 0, 0x80, 0x80, 0x80, 0x80, 0x80, 0x80], 0), misspelled_at(7));
    }

    #[test]
    fn a_record_that_is_cut_off_is_14_at_the_length() {
        assert_eq!(record(&[0, 0], 0), misspelled_at(2));
        assert_eq!(record(&[0], 0), misspelled_at(1));
        assert_eq!(record(&[0x80], 0), misspelled_at(1));
        assert_eq!(record(&[0, 0, 0x80, 0x80, 0x80, 0x80, 0x80], 0), misspelled_at(7));
    }

    #[test]
    fn a_place_past_the_end_is_14_at_the_length() {
        assert_eq!(record(&[0, 0, 1], 4), misspelled_at(3));
        assert_eq!(record(&[0, 0, 1], usize::MAX), misspelled_at(3));
        assert_eq!(record(&[], 1), misspelled_at(0));
        assert_eq!(number(&[0, 0, 1], 3), Err(Reason::ScriptMisspelled.at(3)));
        assert_eq!(number(&[0, 0, 1], 9), Err(Reason::ScriptMisspelled.at(3)));
    }
}
