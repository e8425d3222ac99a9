//! The host's two calls. They take byte buffers, return a status number and fill an answer buffer of 16 bytes.

use crate::refusal::{Reason, Refusal};
use crate::replay;
use crate::table;
use crate::verdict::{self, Verdict};

pub const FEASIBLE: u32 = 20;
pub const OVERLOADED: u32 = 21;
pub const IN_TIME: u32 = 22;
pub const LATE: u32 = 23;

pub fn verdict(table: &[u8], answer: &mut [u8]) -> u32 {
    let Ok(answer) = <&mut [u8; 16]>::try_from(answer) else {
        return Reason::AnswerNot16Bytes.number();
    };
    match table::read(table).map(|table| verdict::verdict(&table)) {
        Ok(Verdict::Feasible) => say(answer, FEASIBLE, 0, 0),
        Ok(Verdict::Overloaded { length, demand }) => say(answer, OVERLOADED, length, demand),
        Err(refusal) => refuse(answer, refusal),
    }
}

pub fn replay(table: &[u8], script: &[u8], log: &mut [u8], answer: &mut [u8]) -> u32 {
    let Ok(answer) = <&mut [u8; 16]>::try_from(answer) else {
        return Reason::AnswerNot16Bytes.number();
    };
    let outcome = table::read(table).and_then(|table| {
        let replayed = replay::replay(&table, script)?;
        let whole = replayed.log();
        let start = log.get_mut(..whole.len()).ok_or(Reason::NoRoom.at(script.len()))?;
        start.copy_from_slice(&whole);
        Ok((whole.len(), replayed.late))
    });
    match outcome {
        Ok((length, late)) => {
            let status = if late == 0 { IN_TIME } else { LATE };
            say(answer, status, length as u64, late)
        }
        Err(refusal) => {
            log.fill(0);
            refuse(answer, refusal)
        }
    }
}

pub(crate) fn say(answer: &mut [u8; 16], status: u32, first: u64, second: u64) -> u32 {
    answer[..8].copy_from_slice(&first.to_le_bytes());
    answer[8..].copy_from_slice(&second.to_le_bytes());
    status
}

pub(crate) fn refuse(answer: &mut [u8; 16], refusal: Refusal) -> u32 {
    say(answer, refusal.reason.number(), refusal.place as u64, 0)
}

#[cfg(test)]
mod tests {
    use super::*;
    use crate::numbers;
    use crate::run::{LAST_TICK, MOST_PENDING};
    use crate::table::tests::{spell, spell_all, spell_with};
    use crate::table::{MOST_ROWS, MOST_X};

    const V3: [u8; 12] = [0, 1, 2, 1, 4, 4, 2, 1, 6, 6, 3, 0];
    const R1: [u8; 9] = [0, 0, 2, 0, 1, 3, 4, 0, 2];
    const ONE_ROW_TOO_MANY: [u8; 3] = [0, 1, MOST_ROWS as u8 + 1];
    const ONE_SERVER_TOO_MANY: [u8; 4] = [0, 1, 0, 9];
    const B_BELOW_A: [u8; 6] = [0, 1, 0, 1, 4, 3];
    const HOPELESS: [u8; 8] = [0, 1, 1, 1, 4, 4, 5, 0];
    const S_IS_P: [u8; 4] = [1, 1, 0, 0];
    const P_IS_0: [u8; 4] = [0, 0, 0, 0];
    const R1_LOG: [u8; 15] = [0, 0, 0, 4, 2, 1, 1, 0, 6, 5, 2, 0, 4, 8, 7];

    fn numbers_of(answer: &[u8; 16]) -> (u64, u64) {
        let number = |bytes: &[u8]| u64::from_le_bytes(bytes.try_into().unwrap());
        (number(&answer[..8]), number(&answer[8..]))
    }

    /// Returns the status and the answer's two numbers.
    fn judged(table: &[u8]) -> (u32, u64, u64) {
        let mut answer = [0xee; 16];
        let status = verdict(table, &mut answer);
        let (first, second) = numbers_of(&answer);
        (status, first, second)
    }

    /// Both calls refuse the table so, whatever the script is, and a replay leaves a log of zeros.
    fn refused_by_both(table: &[u8], refusal: (u32, u64, u64)) {
        let mut log = [0xee; 14];
        assert_eq!(judged(table), refusal);
        for script in [&R1[..], &[0x80, 0x00], &[]] {
            assert_eq!(replayed(table, script, &mut log), refusal);
            assert_eq!(log, [0; 14]);
            log.fill(0xee);
        }
    }

    fn replayed(table: &[u8], script: &[u8], log: &mut [u8]) -> (u32, u64, u64) {
        let mut answer = [0xee; 16];
        let status = replay(table, script, log, &mut answer);
        let (first, second) = numbers_of(&answer);
        (status, first, second)
    }

    #[test]
    fn verdicts_and_refusals() {
        assert_eq!(judged(&V3), (20, 0, 0));
        assert_eq!(judged(&spell(&[[1, 2, 10, 3]])), (21, 26, 27));
        assert_eq!(judged(&spell_with([1, 2], &[[1, 2, 10, 2]])), (21, 18, 19));
        assert_eq!(judged(&[0, 1, 1]), (1, 3, 0));
        assert_eq!(judged(&[0, 1, 0x80, 0x00]), (1, 3, 0));
        assert_eq!(judged(&[0, 1, 1, 1, 0x80, 0x80, 0x80, 0x80, 0x80, 0x80, 1]), (1, 9, 0));
        assert_eq!(judged(&ONE_ROW_TOO_MANY), (2, 2, 0));
        assert_eq!(judged(&[0, 1, 1, 1, 0, 1, 1]), (3, 4, 0));
        assert_eq!(judged(&S_IS_P), (3, 0, 0));
        assert_eq!(judged(&P_IS_0), (3, 1, 0));
        assert_eq!(judged(&[0x81, 0x20, 0x81, 0x20, 0]), (3, 2, 0));
        assert_eq!(judged(&[0x81, 0x20, 0x81, 0x00, 0]), (1, 3, 0));
        assert_eq!(judged(&[0, 1, 0, 0, 0]), (4, 4, 0));
        assert_eq!(judged(&[0, 1, 0]), (1, 3, 0));
        assert_eq!(judged(&ONE_SERVER_TOO_MANY), (2, 3, 0));
        assert_eq!(judged(&B_BELOW_A), (3, 5, 0));
        let long = spell(&[[1, 1_141, 1, 1], [1, 919, 1, 1]]);
        assert_eq!(judged(&long), (5, long.len() as u64, 0));
        let long = spell_with([0, 919], &[[1, 1_141, 1, 1]]);
        assert_eq!(judged(&long), (5, long.len() as u64, 0));
        assert_eq!(judged(&HOPELESS), (16, 6, 0));
    }

    #[test]
    fn a_refused_timer_zeroes_the_log_of_a_replay() {
        for (table, refusal) in [
            (&S_IS_P[..], (3, 0, 0)),
            (&P_IS_0[..], (3, 1, 0)),
            (&[&[1, 1], &V3[2..]].concat(), (3, 0, 0)),
            (&[0x80, 0x20, 0x80, 0x00], (1, 3, 0)),
            (&[0x80, 0x20], (1, 2, 0)),
            (&spell_with([0, 919], &[[1, 1_141, 1, 1]]), (5, 10, 0)),
        ] {
            refused_by_both(table, refusal);
        }
    }

    #[test]
    fn example_r2_and_a_job_that_the_timer_makes_late() {
        let table = [1, 4, 2, 1, 8, 6, 2, 1, 8, 8, 3, 0];
        assert_eq!(judged(&table), (20, 0, 0));
        let mut log = [0xee; 12];
        assert_eq!(replayed(&table, &[0, 0, 2, 0, 1, 3], &mut log), (22, 10, 0));
        assert_eq!(log, [0, 0, 0, 6, 3, 1, 1, 0, 8, 7, 0xee, 0xee]);
        let t5 = [3, 4, 1, 1, 4, 3, 1, 0];
        assert_eq!(judged(&t5), (21, 3, 4));
        assert_eq!(replayed(&t5, &[0, 0, 1], &mut log), (23, 5, 1));
        assert_eq!(log[..5], [0, 0, 0, 3, 4]);
        assert_eq!(replayed(&t5, &[3, 0, 1], &mut log), (22, 5, 0));
        assert_eq!(log[..5], [0, 0, 3, 6, 4]);
    }

    #[test]
    fn example_r3() {
        let table = [0, 1, 1, 1, 4, 4, 2, 1, 1, 4];
        assert_eq!(judged(&table), (20, 0, 0));
        let mut log = [0xee; 16];
        assert_eq!(replayed(&table, &[0, 0, 2, 0, 1, 1, 1, 1, 2], &mut log), (22, 15, 0));
        assert_eq!(log, [0, 0, 0, 4, 2, 1, 1, 0, 4, 3, 2, 1, 1, 0x0c, 5, 0xee]);
        for (cost, place) in [(&[0][..], 5), (&[0x81, 0x20], 5)] {
            assert_eq!(replayed(&table, &[&[0, 0, 2, 0, 1], cost].concat(), &mut log), (7, place, 0));
        }
        assert_eq!(replayed(&table, &[0, 0, 2, 0, 2, 1], &mut log), (6, 4, 0));
    }

    #[test]
    fn examples_s2_to_s8() {
        let judged_with = |timer, rows: &[[u64; 4]], servers: &[[u64; 2]]| judged(&spell_all(timer, rows, servers));
        assert_eq!(judged(&[0, 1, 0, 1, 1, 4]), (20, 0, 0));
        assert_eq!(judged_with([0, 1], &[], &[[4_096, 4_096]]), (20, 0, 0));
        assert_eq!(judged_with([0, 1], &[[1, 4, 4, 2], [1, 6, 6, 3]], &[[1, 12]]), (21, 12, 13));
        assert_eq!(judged(&[0, 1, 0, 2, 1, 1, 1, 0x80, 0x20]), (21, 4_096, 4_097));
        assert_eq!(judged_with([1, 4], &[], &[[3, 4]]), (20, 0, 0));
        assert_eq!(judged_with([1, 4], &[], &[[4, 5]]), (21, 5, 6));
        assert_eq!(judged_with([0, 1], &[[1, 4, 7, 2]], &[[1, 3], [1, 4]]), (21, 36, 37));
    }

    #[test]
    fn refused_servers_are_refused_by_both_calls_at_the_same_place() {
        for (table, refusal) in [
            (&[0, 1, 0][..], (1, 3, 0)),
            (&V3[..11], (1, 11, 0)),
            (&ONE_SERVER_TOO_MANY, (2, 3, 0)),
            (&[&V3[..11], &[9]].concat(), (2, 11, 0)),
            (&B_BELOW_A, (3, 5, 0)),
            (&[&V3[..11], &[1, 0, 0x80, 0x00]].concat(), (3, 12, 0)),
            (&[&V3[..11], &[1, 1, 0x80, 0x00]].concat(), (1, 14, 0)),
            (&[&V3[..11], &[1, 1, 4, 0]].concat(), (4, 14, 0)),
            (&spell_all([0, 1], &[[1, 1_025, 1, 1]], &[[512, 1_024]]), (5, 13, 0)),
        ] {
            refused_by_both(table, refusal);
        }
    }

    #[test]
    fn a_row_whose_c_is_its_d_is_judged_and_replayed() {
        let [all_of_it, too_often] = [[0, 1, 1, 1, 4, 4, 4, 0], [0, 1, 1, 2, 4, 4, 4, 0]];
        assert_eq!(judged(&all_of_it), (20, 0, 0));
        assert_eq!(judged(&too_often), (21, 4, 8));
        let mut log = [0xee; 10];
        assert_eq!(replayed(&all_of_it, &[0, 0, 4, 4, 0, 4], &mut log), (22, 10, 0));
        assert_eq!(log, [0, 0, 0, 4, 4, 1, 0, 4, 8, 8]);
        assert_eq!(replayed(&too_often, &[0, 0, 4, 0, 0, 4], &mut log), (23, 10, 1));
        assert_eq!(log, [0, 0, 0, 4, 4, 1, 0, 0, 4, 8]);
    }

    #[test]
    fn a_hopeless_row_is_refused_by_both_calls_at_the_same_place() {
        let last = spell(&[[1, 300, 300, 4], [1, 4, 4, 4], [1, 300, 299, 300]]);
        for (table, refusal) in [
            (&HOPELESS[..], (16, 6, 0)),
            (&[&HOPELESS[..], &[7]].concat(), (16, 6, 0)),
            (&last, (16, last.len() as u64 - 3, 0)),
            (&spell(&[[1, 4, 4, 5_000]]), (3, 6, 0)),
            (&spell_with([3, 128], &[[1, 4, 4, 5]]), (16, 7, 0)),
        ] {
            refused_by_both(table, refusal);
        }
    }

    #[test]
    fn an_answer_buffer_of_another_size_is_13_first_of_all_and_nothing_is_written() {
        for size in [0, 15, 17, 32] {
            let mut answer = vec![0xee; size];
            let mut log = [0xee; 20];
            assert_eq!(verdict(&ONE_ROW_TOO_MANY, &mut answer), 13);
            assert_eq!(verdict(&HOPELESS, &mut answer), 13);
            assert_eq!(verdict(&S_IS_P, &mut answer), 13);
            assert_eq!(verdict(&ONE_SERVER_TOO_MANY, &mut answer), 13);
            assert_eq!(replay(&B_BELOW_A, &R1, &mut log, &mut answer), 13);
            assert_eq!(replay(&P_IS_0, &R1, &mut log, &mut answer), 13);
            assert_eq!(replay(&HOPELESS, &R1, &mut log, &mut answer), 13);
            assert_eq!(replay(&ONE_ROW_TOO_MANY, &[0x80, 0x00], &mut log, &mut answer), 13);
            assert_eq!(replay(&V3, &R1, &mut log, &mut answer), 13);
            assert_eq!((answer, log), (vec![0xee; size], [0xee; 20]));
        }
    }

    #[test]
    fn as_many_rows_and_pending_jobs_as_the_limits() {
        let most = MOST_ROWS;
        let table = |d, count| spell(&vec![[MOST_X, most, d, 1]; count]);
        let limit = most as usize;
        let (full, above) = (table(most * MOST_X, limit), table(most * MOST_X, limit + 1));
        assert_eq!(judged(&spell(&vec![[1, most, most, 1]; limit])), (20, 0, 0));
        assert_eq!(judged(&spell(&vec![[1, most, most - 1, 1]; limit])), (21, most - 1, most));
        assert_eq!(judged(&above), (2, 2, 0));

        let record = |job: usize| [0, (job % limit) as u8, 1];
        let script = |jobs| (0..jobs).flat_map(record).collect::<Vec<u8>>();
        let mut log = vec![0xee; 30 * (MOST_PENDING + 1)];
        let (status, _, late) = replayed(&full, &script(MOST_PENDING), &mut log);
        assert_eq!((status, late), (22, 0));
        let (status, _, late) = replayed(&table(1, limit), &script(MOST_PENDING), &mut log);
        assert_eq!((status, late), (23, MOST_PENDING as u64 - 1));
        assert_eq!(replayed(&full, &script(MOST_PENDING + 1), &mut log), (8, 3 * MOST_PENDING as u64, 0));
        assert_eq!(replayed(&above, &script(1), &mut log), (2, 2, 0));
        assert!(log.iter().all(|&byte| byte == 0));
    }

    #[test]
    fn bytes_past_the_log_stay() {
        let mut log = [0xee; 20];
        assert_eq!(replayed(&V3, &R1, &mut log), (22, 15, 0));
        assert_eq!(log[..15], R1_LOG);
        assert_eq!(log[15..], [0xee; 5]);
        let mut exact = [0xee; 15];
        assert_eq!(replayed(&V3, &R1, &mut exact), (22, 15, 0));
        assert_eq!(exact, R1_LOG);
    }

    #[test]
    fn no_jobs_leave_the_log_untouched() {
        let mut log = [0xee; 4];
        assert_eq!(replayed(&[0, 1, 0, 0], &[], &mut log), (22, 0, 0));
        assert_eq!(replayed(&[1, 4, 0, 0], &[], &mut log), (22, 0, 0));
        assert_eq!(replayed(&[0, 1, 0, 1, 1, 4], &[], &mut log), (22, 0, 0));
        assert_eq!(log, [0xee; 4]);
    }

    #[test]
    fn late_jobs_are_counted() {
        assert_eq!(replayed(&[0, 1, 1, 2, 1, 1, 1, 0], &[0, 0, 1, 0, 0, 1], &mut [0; 10]), (23, 10, 1));
    }

    #[test]
    fn every_refusal_but_13_zeroes_the_log() {
        for (table, script, refusal) in [
            (&V3[..7], &R1[..], (1, 7, 0)),
            (&[0, 1, 2, 1, 0x84, 0x00, 4, 2][..], &R1[..], (1, 5, 0)),
            (&ONE_ROW_TOO_MANY[..], &R1[..], (2, 2, 0)),
            (&HOPELESS[..], &R1[..], (16, 6, 0)),
            (&V3[..], &R1[..8], (14, 8, 0)),
            (&[0, 1, 1, 1, 2, 6, 1, 0][..], &[0, 0][..], (14, 2, 0)),
            (&V3[..], &[0, 0, 0x82, 0x00][..], (14, 3, 0)),
            (&V3[..], &[0, 0, 0xff, 0xff, 0xff, 0xff, 0xff, 0xff][..], (14, 7, 0)),
            (&V3[..], &[0, 2, 1][..], (6, 1, 0)),
            (&V3[..], &R1[..], (12, 9, 0)),
        ] {
            let mut log = [0xee; 14];
            assert_eq!(replayed(table, script, &mut log), refusal);
            assert_eq!(log, [0; 14]);
        }
    }

    #[test]
    fn an_overflow_loses_to_any_other_refusal() {
        assert_eq!(replayed(&V3, &R1, &mut []), (12, 9, 0));
        assert_eq!(replayed(&V3, &R1[..8], &mut []), (14, 8, 0));
        // Two jobs of two units each are due at the last tick, and there are two ticks for them.
        let crowded = [0, 1, 1, 2, 1, 2, 2, 0];
        let mut script = vec![0, 0, 1];
        script.extend(numbers::spell(LAST_TICK - 2).unwrap());
        script.extend([0, 2, 0, 0, 2]);
        assert_eq!(replayed(&crowded, &script, &mut []), (10, script.len() as u64, 0));
    }

    #[test]
    fn an_overflow_is_not_undone_by_a_shorter_record() {
        // Job 0 waits for 140 other jobs. Their records grow to 9 bytes, and its own, which comes last, has 7.
        let table = spell(&[[1, 1, 16_000, 1], [64, 1, 1, 1]]);
        let script = [vec![0, 0, 1, 0, 1, 1], [1, 1, 1].repeat(139)].concat();
        let mut whole = vec![0xee; 10 * script.len()];
        let (status, length, _) = replayed(&table, &script, &mut whole);
        assert_eq!(status, 22);
        let length = length as usize;
        assert_eq!(whole[length - 7..length], [0, 0, 0, 0x80, 0x7d, 0x8d, 0x01]);

        let mut log = vec![0xee; length - 9];
        assert_eq!(replayed(&table, &script, &mut log), (12, script.len() as u64, 0));
        assert!(log.iter().all(|&byte| byte == 0));
    }
}
