//! The host's four calls on a live run, which is kept as bytes in memory of the host's own. Each call reads the run from
//! its memory, plays on it and writes it back.

use crate::host::{refuse, say};
use crate::memory;
use crate::refusal::{Reason, Refusal};
use crate::run::{Given, Run};

pub const STARTED: u32 = 33;
pub const ACCEPTED: u32 = 34;
pub const IDLE: u32 = 35;
pub const RAN: u32 = 36;
pub const FINISHED: u32 = 37;
pub const TAKEN: u32 = 38;
pub const ENDED: u32 = 39;

/// A status, and the two numbers that go with it.
type Said = (u32, u64, u64);

pub fn start(table: &[u8], memory: &mut [u8], answer: &mut [u8]) -> u32 {
    answered(answer, || {
        let (run, refusal) = Run::start(table);
        memory.copy_from_slice(&memory::write(run.held()));
        refusal.map_or(Ok((STARTED, 0, 0)), Err)
    })
}

pub fn release(memory: &mut [u8], row: u64, cost: u64, answer: &mut [u8]) -> u32 {
    answered(answer, || on_sound_run(memory, |run| run.release(row, cost).map(|job| (ACCEPTED, job.serial, job.due))))
}

pub fn tick(memory: &mut [u8], answer: &mut [u8]) -> u32 {
    let say = |given, late| match given {
        Given::Idle => (IDLE, 0, 0),
        Given::Ran { serial, finished: false } => (RAN, serial, late),
        Given::Ran { serial, finished: true } => (FINISHED, serial, late),
        Given::Taken => (TAKEN, 0, late),
    };
    answered(answer, || on_sound_run(memory, |run| run.tick().map(|ticked| say(ticked.given, ticked.late))))
}

pub fn end(memory: &mut [u8], serial: u64, answer: &mut [u8]) -> u32 {
    answered(answer, || on_sound_run(memory, |run| run.end(serial).map(|units| (ENDED, units, 0))))
}

/// Makes a call whose answer buffer is of the right length, and no other.
fn answered(answer: &mut [u8], call: impl FnOnce() -> Result<Said, Refusal>) -> u32 {
    let Ok(answer) = <&mut [u8; 16]>::try_from(answer) else {
        return Reason::AnswerNot16Bytes.number();
    };
    match call() {
        Ok((status, first, second)) => say(answer, status, first, second),
        Err(refusal) => refuse(answer, refusal),
    }
}

/// Plays a call on the run that stands in the memory, where it is sound. A refused call leaves the run as it was, and so
/// the memory.
fn on_sound_run(memory: &mut [u8], play: impl FnOnce(&mut Run) -> Result<Said, Reason>) -> Result<Said, Refusal> {
    let before = memory::read(memory);
    if !before.is_sound() {
        return Err(Reason::RunNotSound.at(0));
    }
    let mut run = Run::holding(&before);
    let said = play(&mut run);
    memory.copy_from_slice(&memory::write(run.held_over(&before)));
    said.map_err(|reason| reason.at(0))
}

#[cfg(test)]
mod tests {
    use super::*;
    use crate::memory::BYTES;
    use crate::run::{Job, LAST_TICK, MOST_PENDING};
    use crate::sound::Held;
    use crate::table::tests::spell_all;
    use crate::table::{Row, Server};

    /// A host that keeps a run in memory.
    struct Host(Vec<u8>);

    impl Host {
        fn started(table: &[u8]) -> Host {
            let mut host = Host(vec![0xa5; BYTES]);
            assert_eq!(host.start(table), (33, 0, 0));
            host
        }

        fn holding(held: Held) -> Host {
            Host(memory::write(held))
        }

        /// Makes a call, and returns its status and the two numbers of its answer.
        fn call(&mut self, call: impl Fn(&mut [u8], &mut [u8]) -> u32) -> (u32, u64, u64) {
            for length in [0, 1, 8, 15, 17, 32] {
                let before = self.0.clone();
                let mut answer = vec![0xee; length];
                assert_eq!(call(&mut self.0, &mut answer), 13);
                assert!(self.0 == before && answer == vec![0xee; length]);
            }
            let mut answer = [0xee; 16];
            let status = call(&mut self.0, &mut answer);
            let number = |bytes: &[u8]| u64::from_le_bytes(bytes.try_into().unwrap());
            (status, number(&answer[..8]), number(&answer[8..]))
        }

        fn start(&mut self, table: &[u8]) -> (u32, u64, u64) {
            self.call(|memory, answer| start(table, memory, answer))
        }

        fn release(&mut self, row: u64, cost: u64) -> (u32, u64, u64) {
            self.call(|memory, answer| release(memory, row, cost, answer))
        }

        fn tick(&mut self) -> (u32, u64, u64) {
            self.call(tick)
        }

        fn end(&mut self, serial: u64) -> (u32, u64, u64) {
            self.call(|memory, answer| end(memory, serial, answer))
        }

        fn held(&self) -> Held {
            memory::read(&self.0)
        }

        fn change(&mut self, change: impl FnOnce(&mut Held)) {
            let mut held = self.held();
            change(&mut held);
            self.0 = memory::write(held);
        }
    }

    #[test]
    fn each_status_with_its_numbers() {
        // One tick of four is taken. The row is (2, 4, 3, 3), and the server has one unit in four ticks.
        let mut host = Host::started(&spell_all([1, 4], &[[2, 4, 3, 3]], &[[1, 4]]));
        assert_eq!(host.tick(), (38, 0, 0));
        assert_eq!(host.tick(), (35, 0, 0));
        assert_eq!(host.release(0, 2), (34, 0, 5));
        assert_eq!(host.release(0, 3), (34, 1, 5));
        assert_eq!(host.release(1, 2), (34, 2, 10));
        assert_eq!(host.release(2, 1), (6, 0, 0));
        assert_eq!(host.release(0, 4), (7, 0, 0));
        assert_eq!(host.tick(), (36, 0, 0));
        assert_eq!(host.tick(), (37, 0, 0));
        assert_eq!(host.tick(), (38, 0, 1));
        assert_eq!(host.tick(), (36, 1, 0));
        assert_eq!(host.end(1), (39, 1, 0));
        assert_eq!(host.end(1), (17, 0, 0));
        assert_eq!(host.tick(), (36, 2, 0));
        assert_eq!(host.tick(), (37, 2, 0));
        assert_eq!(host.tick(), (38, 0, 0));
        assert_eq!(host.tick(), (35, 0, 0));
    }

    #[test]
    fn late_jobs_are_counted_beside_a_finish_too() {
        let mut host = Host::started(&spell_all([0, 1], &[[3, 9, 1, 1]], &[]));
        for serial in 0..3 {
            assert_eq!(host.release(0, 1), (34, serial, 1));
        }
        assert_eq!(host.tick(), (37, 0, 2));
        assert_eq!(host.tick(), (37, 1, 0));
    }

    #[test]
    fn a_refused_start_says_the_place_and_leaves_the_fresh_run_of_the_empty_table() {
        for (table, refusal) in [
            (&[0, 1, 1, 1, 0x80, 0x00][..], (1, 5, 0)),
            (&[1, 2, 65], (2, 2, 0)),
            (&[1, 1, 0, 0], (3, 0, 0)),
            (&[1, 2, 0, 2, 1, 2, 4, 3], (3, 7, 0)),
            (&[0, 1, 0, 0, 0], (4, 4, 0)),
            (&spell_all([0, 919], &[[1, 1_141, 1, 1]], &[]), (5, 10, 0)),
            (&[0, 1, 1, 1, 4, 4, 5], (16, 6, 0)),
        ] {
            let mut host = Host::started(&spell_all([1, 4], &[[2, 4, 3, 3]], &[[1, 4]]));
            assert_eq!(host.release(0, 1), (34, 0, 3));
            assert_eq!(host.start(table), refusal);
            assert!(host.held() == Run::start(&[0, 1, 0, 0]).0.held());
            assert_eq!(host.end(0), (17, 0, 0));
            assert_eq!(host.release(0, 1), (6, 0, 0));
            assert_eq!(host.tick(), (35, 0, 0));
        }
    }

    #[test]
    fn memory_that_is_no_sound_run_is_refused_and_stays() {
        let mut not_sound = Host::started(&spell_all([0, 1], &[[2, 4, 3, 3]], &[]));
        not_sound.change(|held| held.rows[0].c = 4);
        for mut host in [Host(vec![0; BYTES]), Host(vec![0xff; BYTES]), Host(vec![1; BYTES]), not_sound] {
            let before = host.0.clone();
            assert_eq!(host.release(0, 1), (11, 0, 0));
            assert_eq!(host.tick(), (11, 0, 0));
            assert_eq!(host.end(0), (11, 0, 0));
            assert!(host.0 == before);
            assert_eq!(host.start(&[0, 1, 0, 0]), (33, 0, 0));
            assert_eq!(host.tick(), (35, 0, 0));
        }
    }

    #[test]
    fn the_last_tick_and_the_last_end_by_writing_the_clock_and_the_count() {
        let mut host = Host::started(&spell_all([0, 1], &[[2, 4, 3, 3]], &[]));
        assert_eq!(host.release(0, 2), (34, 0, 3));
        host.change(|held| (held.clock, held.ended) = (LAST_TICK - 1, LAST_TICK));
        assert_eq!(host.tick(), (36, 0, 0));
        assert_eq!(host.tick(), (10, 0, 0));
        assert_eq!(host.release(0, 1), (9, 0, 0));
        assert_eq!(host.end(0), (18, 0, 0));
        assert_eq!(host.end(1), (17, 0, 0));
    }

    #[test]
    fn refused_calls_leave_every_byte() {
        let mut host = Host::started(&spell_all([0, 1], &[[64, 1, 9, 3]; 4], &[]));
        for serial in 0..MOST_PENDING as u64 {
            assert_eq!(host.release(serial / 64, 1), (34, serial, 9));
        }
        let before = host.0.clone();
        assert_eq!(host.release(0, 1), (8, 0, 0));
        assert_eq!(host.release(0, 0), (7, 0, 0));
        assert_eq!(host.release(4, 1), (6, 0, 0));
        assert_eq!(host.end(1 << 40), (17, 0, 0));
        assert!(host.0 == before);
    }

    #[test]
    fn what_is_not_in_use_stays_but_a_place_that_a_job_has_left_holds_zeros() {
        let host = Host::started(&spell_all([0, 1], &[[2, 4, 3, 3]], &[[1, 4]]));
        let other = Job { serial: 9, row: 9, release: 9, due: 9, cost: 9, left: 9 };
        let mut expected = host.held();
        expected.pending.fill(other.clone());
        expected.rows[1..].fill(Row { x: 9, y: 9, d: 9, c: 9 });
        expected.servers[1..].fill(Server { a: 9, b: 9 });
        expected.last[1..].fill(9);
        expected.kept[0].dues.fill(9);
        for kept in &mut expected.kept[1..] {
            kept.dues.fill(9);
            kept.count = 9;
        }
        let mut host = Host::holding(expected.clone());
        for (row, serial, due) in [(0, 0, 3), (1, 1, 4), (0, 2, 3), (0, 3, 7)] {
            assert_eq!(host.release(row, 1), (34, serial, due));
            expected.pending[serial as usize] = Job { serial, row, release: 0, due, cost: 1, left: 1 };
        }
        (expected.pending_count, expected.next_serial) = (4, 4);
        expected.kept[0].dues[..2].copy_from_slice(&[3, 7]);
        (expected.kept[0].count, expected.last[0]) = (2, 4);
        assert!(host.held() == expected);
        assert_eq!(host.end(1), (39, 0, 0));
        assert_eq!(host.tick(), (37, 0, 0));
        expected.pending.drain(..2);
        expected.pending.splice(2..2, [crate::run::NO_JOB, crate::run::NO_JOB]);
        (expected.pending_count, expected.ended, expected.clock) = (2, 1, 1);
        assert_eq!(expected.pending[4], other);
        assert!(host.held() == expected);
    }

    #[test]
    fn a_run_read_from_memory_plays_on_as_one_that_was_kept() {
        let mut state: u64 = 3;
        let mut below = |bound: u64| {
            state = state.wrapping_mul(0x5851_f42d_4c95_7f2d).wrapping_add(1);
            (state >> 33) % bound
        };
        for table in [
            spell_all([1, 4], &[[2, 4, 9, 3], [3, 5, 6, 5], [1, 1, 1, 1]], &[[1, 4], [2, 3]]),
            spell_all([0, 1], &[[64, 1, 9, 3]; 4], &[]),
            spell_all([2, 3], &[], &[[1, 1]; 8]),
        ] {
            let mut host = Host::started(&table);
            let (mut run, _) = Run::start(&table);
            for _ in 0..2_000 {
                let (said, kept) = match below(5) {
                    0 => (host.tick().0, run.tick().map(|_| 0)),
                    1 => {
                        let serial = below(host.held().next_serial + 1);
                        (host.end(serial).0, run.end(serial))
                    }
                    _ => {
                        let (row, cost) = (below(9), 1 + below(5));
                        (host.release(row, cost).0, run.release(row, cost).map(|_| 0))
                    }
                };
                assert_eq!(kept.err().map(Reason::number), Some(said).filter(|&status| status < 33));
                assert!(host.held() == run.held() && host.held().is_sound());
            }
        }
    }
}
