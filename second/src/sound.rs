//! Sound runs. A run of this program is changed only by its own calls, and those keep it sound. So release, tick
//! and end don't ask. This is the rule for a run that was made in another way, such as a live run, whose memory anybody
//! may have written to.

use crate::run::{Job, LAST_TICK, MOST_ENDED, MOST_PENDING, NO_JOB};
use crate::table::{Row, Server, Timer};
use crate::table::{MOST_A, MOST_B, MOST_C, MOST_D, MOST_ODD_COST, MOST_P, MOST_ROWS, MOST_SERVERS, MOST_X, MOST_Y};
use std::collections::BTreeSet;

/// What a run holds. A list may be longer than its count, and what stands after the count is not in use.
#[derive(Clone, Debug, PartialEq, Eq)]
pub struct Held {
    pub timer: Timer,
    pub rows: Vec<Row>,
    pub row_count: u64,
    pub servers: Vec<Server>,
    pub server_count: u64,
    pub clock: u64,
    pub pending: Vec<Job>,
    pub pending_count: u64,
    pub next_serial: u64,
    /// This many jobs were ended early.
    pub ended: u64,
    /// For each row these are the kept due times.
    pub kept: Vec<Kept>,
    /// For each server this is the last due time.
    pub last: Vec<u64>,
}

#[derive(Clone, Debug, Default, PartialEq, Eq)]
pub struct Kept {
    pub dues: Vec<u64>,
    pub count: u64,
}

impl Held {
    /// Nothing but zeros, in as many places as there are.
    pub fn zeros() -> Held {
        let no_dues = Kept { dues: vec![0; MOST_X as usize], count: 0 };
        Held {
            timer: Timer { s: 0, p: 0 },
            rows: vec![Row { x: 0, y: 0, d: 0, c: 0 }; MOST_ROWS as usize],
            row_count: 0,
            servers: vec![Server { a: 0, b: 0 }; MOST_SERVERS as usize],
            server_count: 0,
            clock: 0,
            pending: vec![NO_JOB; MOST_PENDING],
            pending_count: 0,
            next_serial: 0,
            ended: 0,
            kept: vec![no_dues; MOST_ROWS as usize],
            last: vec![0; MOST_SERVERS as usize],
        }
    }

    /// Says whether the run is sound. No count is used before it was tested.
    pub fn is_sound(&self) -> bool {
        self.has_sound_table()
            && self.clock <= LAST_TICK
            && self.has_sound_jobs()
            && self.ended <= MOST_ENDED
            && self.next_serial <= self.clock + self.pending_count + self.ended
            && self.has_sound_due_times()
    }

    /// Returns the rows in use.
    pub fn rows(&self) -> &[Row] {
        &self.rows[..self.row_count as usize]
    }

    /// Returns the servers in use.
    pub fn servers(&self) -> &[Server] {
        &self.servers[..self.server_count as usize]
    }

    /// Returns the pending jobs.
    pub fn jobs(&self) -> &[Job] {
        &self.pending[..self.pending_count as usize]
    }

    fn has_sound_table(&self) -> bool {
        let Timer { s, p } = self.timer;
        let row_is_sound = |row: &Row| {
            let in_range = [(row.x, MOST_X), (row.y, MOST_Y), (row.d, MOST_D), (row.c, MOST_C)];
            in_range.iter().all(|&(value, most)| 1 <= value && value <= most) && row.c <= row.d
        };
        let server_is_sound =
            |server: &Server| 1 <= server.a && server.a <= MOST_A && server.a <= server.b && server.b <= MOST_B;
        s < p
            && p <= MOST_P
            && self.row_count <= MOST_ROWS
            && self.rows().iter().all(row_is_sound)
            && self.server_count <= MOST_SERVERS
            && self.servers().iter().all(server_is_sound)
    }

    fn has_sound_jobs(&self) -> bool {
        if self.pending_count > MOST_PENDING as u64 {
            return false;
        }
        let costs: Vec<u64> =
            self.rows().iter().map(|row| row.c).chain(self.servers().iter().map(|_| MOST_ODD_COST)).collect();
        let job_is_sound = |job: &Job| {
            let most_cost = usize::try_from(job.row).ok().and_then(|row| costs.get(row));
            most_cost.is_some_and(|&most| 1 <= job.cost && job.cost <= most)
                && job.release <= self.clock
                && 1 <= job.left
                && job.left <= job.cost
                && job.due <= LAST_TICK
                && job.serial < self.next_serial
        };
        let serials: BTreeSet<u64> = self.jobs().iter().map(|job| job.serial).collect();
        self.jobs().iter().all(job_is_sound) && serials.len() == self.jobs().len()
    }

    fn has_sound_due_times(&self) -> bool {
        let kept_is_sound = |(row, kept): (&Row, &Kept)| {
            kept.count <= row.x && kept.dues[..kept.count as usize].iter().all(|&due| due <= LAST_TICK)
        };
        self.rows().iter().zip(&self.kept).all(kept_is_sound)
            && self.servers().iter().zip(&self.last).all(|(_, &last)| last <= LAST_TICK)
    }
}

#[cfg(test)]
mod tests {
    use super::*;
    use crate::run::Run;
    use crate::table::tests::spell_all;

    /// A run with two rows and two servers, and with pending jobs of each.
    fn held() -> Held {
        let (mut run, refusal) = Run::start(&spell_all([1, 4], &[[2, 4, 9, 3], [1, 5, 9, 5]], &[[1, 4], [4, 4]]));
        assert_eq!(refusal, None);
        for _ in 0..9 {
            run.tick().unwrap();
        }
        for (row, cost) in [(0, 3), (1, 5), (2, 4), (3, 300), (0, 1)] {
            run.release(row, cost).unwrap();
        }
        run.tick().unwrap();
        run.held()
    }

    fn sound_after(change: impl FnOnce(&mut Held)) -> bool {
        let mut held = held();
        assert!(held.is_sound());
        change(&mut held);
        held.is_sound()
    }

    #[test]
    fn fresh_runs_are_sound_and_calls_keep_them_so() {
        assert!(Run::start(&[]).0.held().is_sound());
        let mut state: u64 = 1;
        let mut below = |bound: u64| {
            state = state.wrapping_mul(0x5851_f42d_4c95_7f2d).wrapping_add(1);
            (state >> 33) % bound
        };
        for _ in 0..200 {
            let p = 1 + below(4);
            let timer = [below(p), p];
            let rows: Vec<[u64; 4]> =
                (0..below(4)).map(|_| [1 + below(3), 1 + below(6), 4 + below(9), 1 + below(4)]).collect();
            let server = |below: &mut dyn FnMut(u64) -> u64| {
                let b = 1 + below(8);
                [1 + below(b), b]
            };
            let servers: Vec<[u64; 2]> = (0..below(9)).map(|_| server(&mut below)).collect();
            let (mut run, refusal) = Run::start(&spell_all(timer, &rows, &servers));
            assert_eq!(refusal, None);
            assert!(run.held().is_sound());
            for _ in 0..60 {
                let before = run.held();
                let refused = match below(4) {
                    0 => run.tick().is_err(),
                    1 => run.end(below(before.next_serial + 2)).is_err(),
                    _ => run.release(below(13), below(6)).is_err(),
                };
                assert!(run.held().is_sound());
                assert!(!refused || run.held() == before);
            }
        }
    }

    #[test]
    fn a_bad_timer() {
        for [s, p] in [[0, 0], [0, 4_097], [4, 4], [5, 4], [1, 1], [u64::MAX, 4]] {
            assert!(!sound_after(|held| held.timer = Timer { s, p }), "{s} {p}");
        }
        assert!(sound_after(|held| held.timer = Timer { s: 4_095, p: 4_096 }));
        assert!(sound_after(|held| held.timer = Timer { s: 0, p: 1 }));
    }

    #[test]
    fn a_bad_row_in_use() {
        assert!(!sound_after(|held| held.row_count = MOST_ROWS + 1));
        assert!(!sound_after(|held| held.row_count = u64::MAX));
        assert!(!sound_after(|held| held.row_count = 3));
        for (index, most) in [MOST_X, MOST_Y, MOST_D, MOST_C].into_iter().enumerate() {
            for (value, sound) in [(0, false), (most, true), (most + 1, false)] {
                let changed = sound_after(|held| {
                    let mut row = [2, 4, 9_000, 3];
                    row[index] = value;
                    let [x, y, d, c] = row;
                    held.rows[0] = Row { x, y, d, c };
                });
                assert_eq!(changed, sound, "{index} {value}");
            }
        }
        assert!(!sound_after(|held| held.rows[1].c = 10));
        assert!(sound_after(|held| held.rows[1].c = 9));
        assert!(sound_after(|held| held.rows[2] = Row { x: 65, y: 0, d: 0, c: 9 }));
    }

    #[test]
    fn a_bad_server_in_use() {
        assert!(!sound_after(|held| held.server_count = MOST_SERVERS + 1));
        assert!(!sound_after(|held| held.server_count = u64::MAX));
        // The server after the last is 0 of 0.
        assert!(!sound_after(|held| held.server_count = 3));
        for (a, b) in [(0, 1), (0, 0), (2, 1), (4, 3), (1, 4_097), (4_097, 4_097), (1, 0), (1, u64::MAX)] {
            assert!(!sound_after(|held| held.servers[0] = Server { a, b }), "{a} {b}");
            assert!(!sound_after(|held| held.servers[1] = Server { a, b }), "{a} {b}");
            assert!(sound_after(|held| held.servers[2] = Server { a, b }), "{a} {b}");
        }
        for (a, b) in [(1, 1), (1, 4_096), (4_096, 4_096)] {
            assert!(sound_after(|held| held.servers[0] = Server { a, b }), "{a} {b}");
        }
        // The pending jobs of a server are of no row number in use where it is not in use itself.
        assert!(!sound_after(|held| held.server_count = 1));
        assert!(!sound_after(|held| held.server_count = 0));
    }

    #[test]
    fn a_long_period_is_sound() {
        let changed = sound_after(|held| {
            held.timer.p = 4_093;
            held.rows[0].y = 4_091;
            held.servers[0].b = 4_079;
        });
        assert!(changed);
    }

    #[test]
    fn a_bad_pending_job() {
        let with = |change: fn(&mut Job), of: usize| sound_after(|held| change(&mut held.pending[of]));
        for of in 0..4 {
            assert!(!with(|job| job.row = 4, of));
            assert!(!with(|job| job.row = u64::MAX, of));
            assert!(!with(|job| job.release = 11, of));
            assert!(!with(|job| (job.cost, job.left) = (0, 0), of));
            assert!(!with(|job| job.left = 0, of));
            assert!(!with(|job| job.left = job.cost + 1, of));
            assert!(!with(|job| job.due = LAST_TICK + 1, of));
            assert!(!with(|job| job.serial = 5, of));
            assert!(!with(|job| job.serial = 4, of));
            assert!(with(|job| (job.due, job.release) = (LAST_TICK, 0), of));
        }
        // Jobs 0 and 1 are of rows with a c of 3 and 5, and jobs 2 and 3 are odd jobs.
        for (of, most) in [(0, 3), (1, 5), (2, MOST_ODD_COST), (3, MOST_ODD_COST)] {
            assert!(sound_after(|held| held.pending[of].cost = most));
            assert!(!sound_after(|held| held.pending[of].cost = most + 1));
        }
        assert!(!sound_after(|held| held.pending_count = MOST_PENDING as u64 + 1));
        assert!(!sound_after(|held| held.pending_count = u64::MAX));
        assert!(!sound_after(|held| held.pending_count = 6));
        assert!(sound_after(|held| held.pending[5].row = 99));
    }

    #[test]
    fn a_bad_clock_or_next_serial() {
        assert!(sound_after(|held| held.clock = LAST_TICK));
        assert!(!sound_after(|held| held.clock = LAST_TICK + 1));
        assert!(!sound_after(|held| held.clock = u64::MAX));
        // The clock is at 10, and five jobs are pending.
        assert!(sound_after(|held| held.next_serial = 15));
        assert!(!sound_after(|held| held.next_serial = 16));
    }

    #[test]
    fn a_bad_count_of_ended_jobs_and_the_next_serial_with_them() {
        assert!(sound_after(|held| held.ended = LAST_TICK));
        assert!(!sound_after(|held| held.ended = LAST_TICK + 1));
        // No sum is made of a count above its limit.
        assert!(!sound_after(|held| held.ended = u64::MAX));
        assert!(!sound_after(|held| (held.ended, held.clock) = (u64::MAX, LAST_TICK)));
        assert!(!sound_after(|held| (held.ended, held.clock) = (u64::MAX, u64::MAX)));
        // The clock is at 10, and five jobs are pending.
        for (ended, most) in [(0, 15), (1, 16), (300, 315), (LAST_TICK, LAST_TICK + 15)] {
            assert!(sound_after(|held| (held.ended, held.next_serial) = (ended, most)), "{ended}");
            assert!(!sound_after(|held| (held.ended, held.next_serial) = (ended, most + 1)), "{ended}");
        }
        let all = |held: &mut Held| (held.clock, held.ended) = (LAST_TICK, LAST_TICK);
        let with_next_serial = |next_serial| {
            sound_after(|held| {
                all(held);
                held.next_serial = next_serial;
            })
        };
        assert!(with_next_serial(2 * LAST_TICK + 5));
        assert!(!with_next_serial(2 * LAST_TICK + 6));
        assert!(!with_next_serial(u64::MAX));
    }

    #[test]
    fn bad_due_times_that_are_kept() {
        assert!(!sound_after(|held| held.kept[0].count = 3));
        assert!(!sound_after(|held| held.kept[0].count = u64::MAX));
        assert!(!sound_after(|held| held.kept[0].dues[1] = LAST_TICK + 1));
        assert!(sound_after(|held| held.kept[0].dues[1] = LAST_TICK));
        assert!(sound_after(|held| held.kept[0].dues[2] = u64::MAX));
        assert!(sound_after(|held| held.kept[2] = Kept { dues: vec![u64::MAX; 64], count: u64::MAX }));
    }

    #[test]
    fn a_bad_last_due_time_of_a_server_in_use_and_of_another() {
        for server in [0, 1] {
            assert!(sound_after(|held| held.last[server] = LAST_TICK));
            assert!(sound_after(|held| held.last[server] = 0));
            assert!(!sound_after(|held| held.last[server] = LAST_TICK + 1));
            assert!(!sound_after(|held| held.last[server] = u64::MAX));
        }
        for server in 2..8 {
            assert!(sound_after(|held| held.last[server] = LAST_TICK + 1));
            assert!(sound_after(|held| held.last[server] = u64::MAX));
        }
    }
}
