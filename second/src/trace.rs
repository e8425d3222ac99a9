//! A trace: a list of calls is played on one run, and every answer is given as numbers.

use crate::run::{Given, Run};

#[derive(Clone, Copy, Debug, PartialEq, Eq)]
pub enum Call {
    Release { row: u64, cost: u64 },
    Tick,
    End { serial: u64 },
}

/// An answer has four numbers. The first is one of these kinds, which says what the other three are.
pub mod kind {
    /// A run was started. The other three are 0, 0 and 0.
    pub const STARTED: u64 = 1;
    /// A job was released. The other three are its serial, its due time and 0.
    pub const RELEASED: u64 = 2;
    /// A tick was not taken and found nothing pending. The other three are 0, 0 and the late count.
    pub const IDLE: u64 = 3;
    /// A tick gave a unit to a job that did not finish. The other three are the job's serial, 0 and the late count.
    pub const RAN: u64 = 4;
    /// A tick gave a job its last unit. The other three are the job's serial, 0 and the late count.
    pub const FINISHED: u64 = 5;
    /// The call was refused. The other three are the refusal's number, its place and 0. The place is 0 unless a table
    /// is refused.
    pub const REFUSED: u64 = 6;
    /// A tick was taken by the timer. The other three are 0, 0 and the late count.
    pub const TAKEN: u64 = 7;
    /// A job was ended early. The other three are the units that it was given, 0 and 0.
    pub const ENDED: u64 = 8;
}

pub type Answer = [u64; 4];

/// Returns one answer for the start of the run, and then one for each call.
pub fn trace(table: &[u8], calls: &[Call]) -> Vec<Answer> {
    let (mut run, refusal) = Run::start(table);
    let started = match refusal {
        None => [kind::STARTED, 0, 0, 0],
        Some(refusal) => [kind::REFUSED, refusal.reason.number().into(), refusal.place as u64, 0],
    };
    let played = calls.iter().map(|&call| play(&mut run, call));
    [started].into_iter().chain(played).collect()
}

fn play(run: &mut Run, call: Call) -> Answer {
    let answer = match call {
        Call::Release { row, cost } => run.release(row, cost).map(|job| [kind::RELEASED, job.serial, job.due, 0]),
        Call::Tick => run.tick().map(|ticked| match ticked.given {
            Given::Taken => [kind::TAKEN, 0, 0, ticked.late],
            Given::Idle => [kind::IDLE, 0, 0, ticked.late],
            Given::Ran { serial, finished: false } => [kind::RAN, serial, 0, ticked.late],
            Given::Ran { serial, finished: true } => [kind::FINISHED, serial, 0, ticked.late],
        }),
        Call::End { serial } => run.end(serial).map(|units| [kind::ENDED, units, 0, 0]),
    };
    answer.unwrap_or_else(|reason| [kind::REFUSED, reason.number().into(), 0, 0])
}

#[cfg(test)]
mod tests {
    use super::*;

    #[test]
    fn every_kind_of_answer() {
        let release = |row, cost| Call::Release { row, cost };
        let refused = [release(1, 1), release(0, 3)];
        let calls = [&[Call::Tick, release(0, 2), release(0, 2)][..], &refused, &[Call::Tick; 3]].concat();
        let two_at_a_time = [0, 1, 1, 2, 1, 2, 2, 0];
        assert_eq!(
            trace(&two_at_a_time, &calls),
            [
                [kind::STARTED, 0, 0, 0],
                [kind::IDLE, 0, 0, 0],
                [kind::RELEASED, 0, 3, 0],
                [kind::RELEASED, 1, 3, 0],
                [kind::REFUSED, 6, 0, 0],
                [kind::REFUSED, 7, 0, 0],
                [kind::RAN, 0, 0, 0],
                [kind::FINISHED, 0, 0, 1],
                [kind::RAN, 1, 0, 0],
            ]
        );
    }

    #[test]
    fn a_refused_table_is_answered_and_played_as_the_empty_one() {
        let calls = [Call::Release { row: 0, cost: 1 }, Call::Tick];
        let answers = [[kind::REFUSED, 4, 4, 0], [kind::REFUSED, 6, 0, 0], [kind::IDLE, 0, 0, 0]];
        assert_eq!(trace(&[0, 1, 0, 0, 0], &calls), answers);
        let bad_server = [[kind::REFUSED, 3, 7, 0], [kind::REFUSED, 6, 0, 0], [kind::IDLE, 0, 0, 0]];
        assert_eq!(trace(&[1, 2, 0, 2, 1, 2, 4, 3], &calls), bad_server);
        let nine_servers = [[kind::REFUSED, 2, 3, 0], [kind::REFUSED, 6, 0, 0], [kind::IDLE, 0, 0, 0]];
        assert_eq!(trace(&[1, 2, 0, 9, 1, 2], &calls), nine_servers);
        assert_eq!(trace(&[0, 1, 1, 0x80, 0x00, 1, 1, 1], &[]), [[kind::REFUSED, 1, 4, 0]]);
        assert_eq!(trace(&[0, 1, 1, 1, 0x82], &[]), [[kind::REFUSED, 1, 5, 0]]);
        let hopeless = [[kind::REFUSED, 16, 6, 0], [kind::REFUSED, 6, 0, 0], [kind::IDLE, 0, 0, 0]];
        assert_eq!(trace(&[0, 1, 1, 1, 4, 4, 5], &calls), hopeless);
    }

    #[test]
    fn a_refused_timer_takes_no_tick_of_the_empty_tables_run() {
        for (table, number, place) in [
            (&[1, 1, 0, 0][..], 3, 0),
            (&[0, 0, 0, 0], 3, 1),
            (&[1, 2, 65], 2, 2),
            (&[1, 2, 0, 0, 9], 4, 4),
            (&[1], 1, 1),
        ] {
            assert_eq!(trace(table, &[Call::Tick]), [[kind::REFUSED, number, place, 0], [kind::IDLE, 0, 0, 0]]);
        }
    }

    #[test]
    fn a_taken_tick_is_answered_with_and_without_a_pending_job_and_with_late_jobs() {
        let release = Call::Release { row: 0, cost: 1 };
        let calls = [Call::Tick, Call::Tick, Call::Tick, release, Call::Tick, Call::Tick, release, release, Call::Tick];
        // The ticks at 0 and 1 are taken, and so are those at 3 and 4. A job is due one tick after its release.
        let two_of_three = [2, 3, 1, 2, 1, 1, 1, 0];
        assert_eq!(
            trace(&two_of_three, &[&calls[..], &[Call::Tick; 2]].concat()),
            [
                [kind::STARTED, 0, 0, 0],
                [kind::TAKEN, 0, 0, 0],
                [kind::TAKEN, 0, 0, 0],
                [kind::IDLE, 0, 0, 0],
                [kind::RELEASED, 0, 4, 0],
                [kind::TAKEN, 0, 0, 1],
                [kind::TAKEN, 0, 0, 0],
                [kind::RELEASED, 1, 6, 0],
                [kind::RELEASED, 2, 6, 0],
                [kind::FINISHED, 0, 0, 2],
                [kind::TAKEN, 0, 0, 0],
                [kind::TAKEN, 0, 0, 0],
            ]
        );
    }

    #[test]
    fn odd_jobs_are_released_and_refused_after_the_rows() {
        let release = |row, cost| Call::Release { row, cost };
        let calls =
            [release(1, 1), Call::Tick, release(1, 4_097), release(2, 1), release(1, 3), release(0, 1), Call::Tick];
        // The row is (1, 4, 4, 2), and the server has two units in three ticks.
        let two_of_three = [0, 1, 1, 1, 4, 4, 2, 1, 2, 3];
        assert_eq!(
            trace(&two_of_three, &calls),
            [
                [kind::STARTED, 0, 0, 0],
                [kind::RELEASED, 0, 2, 0],
                [kind::FINISHED, 0, 0, 0],
                [kind::REFUSED, 7, 0, 0],
                [kind::REFUSED, 6, 0, 0],
                [kind::RELEASED, 1, 7, 0],
                [kind::RELEASED, 2, 5, 0],
                [kind::FINISHED, 2, 0, 0],
            ]
        );
    }

    #[test]
    fn ends_are_answered_with_their_units_or_refused() {
        let release = |row, cost| Call::Release { row, cost };
        let end = |serial| Call::End { serial };
        let calls = [end(0), release(0, 2), release(0, 2), release(1, 1), Call::Tick, end(0), end(0), end(1), end(3)];
        let later = [release(0, 1), release(1, 1), Call::Tick, end(2), Call::Tick, end(3), Call::Tick];
        // The row is (2, 4, 4, 2), and the server has one unit in four ticks.
        let one_of_four = [0, 1, 1, 2, 4, 4, 2, 1, 1, 4];
        assert_eq!(
            trace(&one_of_four, &[&calls[..], &later].concat()),
            [
                [kind::STARTED, 0, 0, 0],
                [kind::REFUSED, 17, 0, 0],
                [kind::RELEASED, 0, 4, 0],
                [kind::RELEASED, 1, 4, 0],
                [kind::RELEASED, 2, 4, 0],
                [kind::RAN, 0, 0, 0],
                [kind::ENDED, 1, 0, 0],
                [kind::REFUSED, 17, 0, 0],
                [kind::ENDED, 0, 0, 0],
                [kind::REFUSED, 17, 0, 0],
                [kind::RELEASED, 3, 8, 0],
                [kind::RELEASED, 4, 8, 0],
                [kind::FINISHED, 2, 0, 0],
                [kind::REFUSED, 17, 0, 0],
                [kind::FINISHED, 3, 0, 0],
                [kind::REFUSED, 17, 0, 0],
                [kind::FINISHED, 4, 0, 0],
            ]
        );
    }
}
