//! The chooser says which of two scripts has the record that comes next.

use crate::refusal::{Reason, Refusal};
use crate::run::LAST_TICK;
use crate::script;

#[derive(Clone, Copy, Debug, PartialEq, Eq)]
pub enum Which {
    First = 1,
    Second = 2,
}

/// This says which script's record comes next, with the record's bytes as a part of that script. When both scripts have
/// ended it is no script, with an empty part of the first.
pub type Next<'a> = (Option<Which>, &'a [u8]);

/// Returns the record that comes next. Times are tested before spelling, and the first script before the second.
pub fn choose<'a>(
    first: &'a [u8],
    second: &'a [u8],
    first_time: u64,
    second_time: u64,
) -> Result<Next<'a>, (Which, Refusal)> {
    for (which, time) in [(Which::First, first_time), (Which::Second, second_time)] {
        if time > LAST_TICK {
            return Err((which, Reason::TimeTooLate.at(0)));
        }
    }
    let of_first = script::record(first, 0).map_err(|refusal| (Which::First, refusal))?;
    let of_second = script::record(second, 0).map_err(|refusal| (Which::Second, refusal))?;
    Ok(match (of_first, of_second) {
        (None, None) => (None, &first[..0]),
        (Some(record), None) => (Some(Which::First), &first[..record.after]),
        (None, Some(record)) => (Some(Which::Second), &second[..record.after]),
        (Some(one), Some(other)) if first_time + one.gap <= second_time + other.gap => {
            (Some(Which::First), &first[..one.after])
        }
        (Some(_), Some(other)) => (Some(Which::Second), &second[..other.after]),
    })
}

#[cfg(test)]
mod tests {
    use super::*;

    const EARLY: [u8; 6] = [1, 0, 1, 9, 9, 9];
    const LATE: [u8; 4] = [0xac, 0x02, 1, 2];

    fn next(which: Which, part: &[u8]) -> Result<Next<'_>, (Which, Refusal)> {
        Ok((Some(which), part))
    }

    #[test]
    fn the_earlier_record_comes_next_and_the_first_script_at_equal_times() {
        assert_eq!(choose(&EARLY, &LATE, 0, 0), next(Which::First, &EARLY[..3]));
        assert_eq!(choose(&LATE, &EARLY, 0, 0), next(Which::Second, &EARLY[..3]));
        assert_eq!(choose(&EARLY, &LATE, 299, 0), next(Which::First, &EARLY[..3]));
        assert_eq!(choose(&EARLY, &LATE, 300, 0), next(Which::Second, &LATE));
        assert_eq!(choose(&LATE, &LATE, 7, 7), next(Which::First, &LATE));
    }

    #[test]
    fn an_ended_script_leaves_the_word_to_the_other() {
        assert_eq!(choose(&[], &LATE, 0, 0), next(Which::Second, &LATE));
        assert_eq!(choose(&LATE, &[], 0, 0), next(Which::First, &LATE));
        let first: [u8; 0] = [];
        let (which, part) = choose(&first, &[], 0, 0).unwrap();
        assert_eq!((which, part.as_ptr(), part.len()), (None, first.as_ptr(), 0));
    }

    #[test]
    fn times_then_spelling_each_of_the_first_script_first() {
        let cut = [0, 0];
        let too_late = |which| Err((which, Reason::TimeTooLate.at(0)));
        let misspelled = |which, place| Err((which, Reason::ScriptMisspelled.at(place)));
        assert_eq!(choose(&cut, &cut, LAST_TICK + 1, LAST_TICK + 1), too_late(Which::First));
        assert_eq!(choose(&cut, &cut, LAST_TICK, LAST_TICK + 1), too_late(Which::Second));
        assert_eq!(choose(&cut, &[0x80, 0x00], LAST_TICK, LAST_TICK), misspelled(Which::First, 2));
        assert_eq!(choose(&EARLY, &[0x80, 0x00], 0, 0), misspelled(Which::Second, 1));
        assert_eq!(choose(&[0, 0xff, 0xff, 0xff, 0xff, 0xff, 0xff], &cut, 0, 0), misspelled(Which::First, 6));
        assert_eq!(choose(&EARLY, &[0, 0, 0x80, 0x80], 0, 0), misspelled(Which::Second, 4));
        assert_eq!(choose(&[], &cut, 0, 0), misspelled(Which::Second, 2));
    }

    #[test]
    fn a_record_past_the_last_tick_is_compared_and_not_refused() {
        assert_eq!(choose(&LATE, &EARLY, LAST_TICK, LAST_TICK), next(Which::Second, &EARLY[..3]));
    }
}
