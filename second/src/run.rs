//! Runs. Jobs are released, and each tick that the timer leaves free gives one unit to the pending job with the
//! earliest due time. A pending job can be ended before it has had its cost.

use crate::due::due;
use crate::refusal::{Reason, Refusal};
use crate::sound::{Held, Kept};
use crate::table::{self, Row, Table};

pub const LAST_TICK: u64 = 1 << 40;
/// This is the limit of pending jobs.
pub const MOST_PENDING: usize = 256;
/// No more jobs than this are ended early.
pub const MOST_ENDED: u64 = 1 << 40;

#[derive(Clone, Debug, PartialEq, Eq)]
pub struct Job {
    pub serial: u64,
    pub row: u64,
    pub release: u64,
    pub due: u64,
    pub cost: u64,
    pub left: u64,
}

/// This stands in a place that a job has left.
pub const NO_JOB: Job = Job { serial: 0, row: 0, release: 0, due: 0, cost: 0, left: 0 };

#[derive(Clone, Debug)]
pub struct Run {
    table: Table,
    clock: u64,
    pending: Vec<Job>,
    next_serial: u64,
    /// For each row, and after the rows for each server, these are the due times of all its accepted jobs.
    dues: Vec<Vec<u64>>,
    /// This many jobs were ended early.
    ended: u64,
}

#[derive(Clone, Copy, Debug, PartialEq, Eq)]
pub enum Given {
    Taken,
    Idle,
    Ran { serial: u64, finished: bool },
}

#[derive(Clone, Copy, Debug, PartialEq, Eq)]
pub struct Ticked {
    pub given: Given,
    /// This many jobs became late in this tick.
    pub late: u64,
}

impl Run {
    pub fn fresh(table: Table) -> Run {
        let dues = vec![vec![]; table.rows.len() + table.servers.len()];
        Run { table, clock: 0, pending: vec![], next_serial: 0, dues, ended: 0 }
    }

    /// Starts a fresh run on the bytes of a table. Where they are refused, it is the fresh run of the empty table, with
    /// the refusal.
    pub fn start(bytes: &[u8]) -> (Run, Option<Refusal>) {
        match table::read(bytes) {
            Ok(table) => (Run::fresh(table), None),
            Err(refusal) => (Run::fresh(Table::empty()), Some(refusal)),
        }
    }

    pub fn clock(&self) -> u64 {
        self.clock
    }

    pub fn pending(&self) -> &[Job] {
        &self.pending
    }

    /// Adds a job that is released at the clock. It is of a row, or an odd job of a server.
    pub fn release(&mut self, row: u64, cost: u64) -> Result<Job, Reason> {
        let named = self.table.named(row).ok_or(Reason::NoSuchRow)?;
        if cost < 1 || cost > named.most_cost() {
            return Err(Reason::CostOutOfRange);
        }
        if self.pending.len() == MOST_PENDING {
            return Err(Reason::PlacesFull);
        }
        let earlier = &mut self.dues[row as usize];
        let due = due(&named, earlier, self.clock, cost);
        if due > LAST_TICK {
            return Err(Reason::DueTooLate);
        }
        earlier.push(due);
        let job = Job { serial: self.next_serial, row, release: self.clock, due, cost, left: cost };
        self.next_serial += 1;
        self.pending.push(job.clone());
        Ok(job)
    }

    pub fn tick(&mut self) -> Result<Ticked, Reason> {
        if self.clock == LAST_TICK {
            return Err(Reason::TimeTooLate);
        }
        let taken = self.table.timer.takes(self.clock);
        let next = self.pending.iter_mut().min_by_key(|job| (job.due, job.serial));
        let given = match next {
            _ if taken => Given::Taken,
            None => Given::Idle,
            Some(job) => {
                job.left -= 1;
                Given::Ran { serial: job.serial, finished: job.left == 0 }
            }
        };
        self.pending.retain(|job| job.left > 0);
        self.clock += 1;
        let late = self.pending.iter().filter(|job| job.due == self.clock).count() as u64;
        Ok(Ticked { given, late })
    }

    /// Ends a pending job before it has had its cost, and returns the units that it was given. Its due time goes on
    /// counting.
    pub fn end(&mut self, serial: u64) -> Result<u64, Reason> {
        let place = self.pending.iter().position(|job| job.serial == serial).ok_or(Reason::NotPending)?;
        if self.ended == MOST_ENDED {
            return Err(Reason::TooManyEnded);
        }
        let job = self.pending.remove(place);
        self.ended += 1;
        Ok(job.cost - job.left)
    }

    /// Takes the clock to a later time in one go, where nothing is pending and every tick would be idle or taken.
    pub fn pass_until(&mut self, time: u64) {
        assert!(self.pending.is_empty() && self.clock <= time && time <= LAST_TICK);
        self.clock = time;
    }

    /// Returns what the rules say that a run holds: for each row its newest due times, at most x of them, and for each
    /// server its last. What is not in use is 0.
    pub fn held(&self) -> Held {
        self.held_over(&Held::zeros())
    }

    /// Returns the same where something else stood before the last call. What is not in use stays as it was, but a place
    /// that a job has left holds zeros.
    pub fn held_over(&self, before: &Held) -> Held {
        let Table { timer, rows, servers, .. } = &self.table;
        let (of_rows, of_servers) = self.dues.split_at(rows.len());
        let newest = |((row, dues), before): ((&Row, &Vec<u64>), &Kept)| {
            let count = dues.len().min(row.x as usize);
            Kept { dues: over(&dues[dues.len() - count..], &before.dues), count: count as u64 }
        };
        let kept: Vec<Kept> = rows.iter().zip(of_rows).zip(&before.kept).map(newest).collect();
        let last: Vec<u64> = of_servers.iter().map(|dues| dues.last().copied().unwrap_or(0)).collect();
        let left_behind = before.jobs().len().saturating_sub(self.pending.len());
        let places = [&self.pending[..], &vec![NO_JOB; left_behind]].concat();
        Held {
            timer: *timer,
            rows: over(rows, &before.rows),
            row_count: rows.len() as u64,
            servers: over(servers, &before.servers),
            server_count: servers.len() as u64,
            clock: self.clock,
            pending: over(&places, &before.pending),
            pending_count: self.pending.len() as u64,
            next_serial: self.next_serial,
            ended: self.ended,
            kept: over(&kept, &before.kept),
            last: over(&last, &before.last),
        }
    }

    /// Returns the run that holds this. It has to be sound.
    pub fn holding(held: &Held) -> Run {
        let (rows, servers) = (held.rows().to_vec(), held.servers().to_vec());
        let of_row = |kept: &Kept| kept.dues[..kept.count as usize].to_vec();
        let of_rows = held.kept[..rows.len()].iter().map(of_row);
        let of_servers = held.last[..servers.len()].iter().map(|&last| vec![last]);
        Run {
            dues: of_rows.chain(of_servers).collect(),
            // No call on a run asks for the period, which may be too long for a table here.
            table: Table { timer: held.timer, rows, servers, period: 0 },
            clock: held.clock,
            pending: held.jobs().to_vec(),
            next_serial: held.next_serial,
            ended: held.ended,
        }
    }
}

/// Puts a list over the start of another, of which the rest stays.
fn over<T: Clone>(list: &[T], before: &[T]) -> Vec<T> {
    [list, &before[list.len()..]].concat()
}

#[cfg(test)]
mod tests {
    use super::*;
    use crate::table::tests::{spell, spell_all, spell_with};
    use crate::table::{MOST_ODD_COST, MOST_ROWS, MOST_X};

    /// This many rows with x at its most have jobs for all places before the spacing by y sets in.
    const ROWS_FOR_ALL_PLACES: usize = MOST_PENDING / MOST_X as usize;

    fn run_on(rows: &[[u64; 4]]) -> Run {
        run_with([0, 1], rows)
    }

    fn run_with(timer: [u64; 2], rows: &[[u64; 4]]) -> Run {
        run_of(timer, rows, &[])
    }

    fn run_of(timer: [u64; 2], rows: &[[u64; 4]], servers: &[[u64; 2]]) -> Run {
        let (run, refusal) = Run::start(&spell_all(timer, rows, servers));
        assert_eq!(refusal, None);
        run
    }

    fn released(run: &mut Run, row: u64, cost: u64) -> (u64, u64) {
        let job = run.release(row, cost).unwrap();
        (job.serial, job.due)
    }

    fn taken(late: u64) -> Result<Ticked, Reason> {
        Ok(Ticked { given: Given::Taken, late })
    }

    fn idle(late: u64) -> Result<Ticked, Reason> {
        Ok(Ticked { given: Given::Idle, late })
    }

    fn ran(serial: u64, finished: bool, late: u64) -> Result<Ticked, Reason> {
        Ok(Ticked { given: Given::Ran { serial, finished }, late })
    }

    #[test]
    fn examples_d1_to_d3_by_release_and_tick() {
        for (rule, releases, dues) in [
            ([1, 2, 6, 6], vec![0, 0, 0, 3, 3, 6], vec![6, 8, 10, 12, 14, 16]),
            ([3, 6, 6, 6], vec![0, 0, 0, 3, 3, 6], vec![6, 6, 6, 12, 12, 12]),
            ([1, 2, 6, 6], vec![0, 20], vec![6, 26]),
        ] {
            let mut run = run_on(&[rule]);
            for (serial, (release, due)) in releases.into_iter().zip(dues).enumerate() {
                while run.clock() < release {
                    run.tick().unwrap();
                }
                assert_eq!(released(&mut run, 0, 1), (serial as u64, due));
            }
        }
    }

    #[test]
    fn a_refused_table_starts_a_fresh_run_of_the_empty_one() {
        let (mut run, refusal) = Run::start(&[0, 1, MOST_ROWS as u8 + 1]);
        assert_eq!(refusal, Some(Reason::TooManyRows.at(2)));
        assert_eq!(run.release(0, 1), Err(Reason::NoSuchRow));
        assert_eq!(run.tick(), idle(0));
        let (mut run, refusal) = Run::start(&spell(&[[1, 4, 4, 4], [1, 4, 4, 5]]));
        assert_eq!(refusal, Some(Reason::HopelessRow.at(10)));
        assert_eq!(run.release(0, 1), Err(Reason::NoSuchRow));
        let (mut run, refusal) = Run::start(&spell_with([3, 4], &[[1, 4, 4, 5]]));
        assert_eq!(refusal, Some(Reason::HopelessRow.at(6)));
        assert_eq!(run.tick(), idle(0));
    }

    #[test]
    fn an_overloaded_table_runs_too() {
        let mut run = run_on(&[[2, 1, 1, 1]]);
        assert_eq!(released(&mut run, 0, 1), (0, 1));
        assert_eq!(released(&mut run, 0, 1), (1, 1));
        assert_eq!(run.tick(), ran(0, true, 1));
        assert_eq!(run.tick(), ran(1, true, 0));
        assert_eq!(run.tick(), idle(0));
    }

    #[test]
    fn the_earliest_due_time_goes_first_and_the_lowest_serial_among_equals() {
        let mut run = run_on(&[[4, 9, 9, 9], [4, 9, 5, 5]]);
        assert_eq!(released(&mut run, 0, 1), (0, 9));
        assert_eq!(released(&mut run, 1, 2), (1, 5));
        assert_eq!(released(&mut run, 1, 1), (2, 5));
        assert_eq!(run.tick(), ran(1, false, 0));
        assert_eq!(run.tick(), ran(1, true, 0));
        assert_eq!(run.tick(), ran(2, true, 0));
        assert_eq!(run.tick(), ran(0, true, 0));
    }

    #[test]
    fn late_is_unfinished_at_the_due_time_and_late_jobs_stay() {
        let mut run = run_on(&[[4, 9, 2, 2]]);
        assert_eq!(released(&mut run, 0, 2), (0, 2));
        assert_eq!(released(&mut run, 0, 2), (1, 2));
        assert_eq!(run.tick(), ran(0, false, 0));
        assert_eq!(run.tick(), ran(0, true, 1));
        assert_eq!(run.tick(), ran(1, false, 0));
        assert_eq!(run.tick(), ran(1, true, 0));
    }

    #[test]
    fn refusals_of_a_release_in_order() {
        let mut run = run_on(&[[MOST_X, 1, 4, 2]; ROWS_FOR_ALL_PLACES]);
        assert_eq!(run.release(ROWS_FOR_ALL_PLACES as u64, 0), Err(Reason::NoSuchRow));
        assert_eq!(run.release(1 << 32, 1), Err(Reason::NoSuchRow));
        assert_eq!(run.release(0, 0), Err(Reason::CostOutOfRange));
        assert_eq!(run.release(0, 3), Err(Reason::CostOutOfRange));
        run.pass_until(LAST_TICK - 4);
        for serial in 0..MOST_PENDING as u64 {
            assert_eq!(released(&mut run, serial / MOST_X, 1), (serial, LAST_TICK));
        }
        assert_eq!(run.release(0, 3), Err(Reason::CostOutOfRange));
        assert_eq!(run.release(0, 1), Err(Reason::PlacesFull));
        assert_eq!(run.tick(), ran(0, true, 0));
        assert_eq!(run.release(0, 1), Err(Reason::DueTooLate));
    }

    #[test]
    fn a_refused_release_leaves_no_trace() {
        let mut run = run_on(&[[1, 4, 8, 2]]);
        assert_eq!(released(&mut run, 0, 1), (0, 8));
        assert!(run.release(0, 0).is_err());
        assert!(run.release(1, 1).is_err());
        assert_eq!(released(&mut run, 0, 1), (1, 12));
    }

    #[test]
    fn a_finished_job_leaves_its_place_and_its_due_time_counts_on() {
        let mut run = run_on(&[[MOST_X, 9, 9, 1]; ROWS_FOR_ALL_PLACES]);
        let jobs = MOST_PENDING as u64;
        for serial in 0..jobs {
            assert_eq!(released(&mut run, serial / MOST_X, 1), (serial, 9));
        }
        assert_eq!(run.release(0, 1), Err(Reason::PlacesFull));
        assert_eq!(run.tick(), ran(0, true, 0));
        assert_eq!(released(&mut run, 0, 1), (jobs, 18));
    }

    #[test]
    fn the_clock_stops_at_its_end() {
        let mut run = run_on(&[]);
        run.pass_until(LAST_TICK - 1);
        assert_eq!(run.tick(), idle(0));
        assert_eq!(run.tick(), Err(Reason::TimeTooLate));
        assert_eq!(run.clock(), LAST_TICK);
    }

    #[test]
    fn the_first_ticks_of_every_p_are_taken_and_idle_means_free_with_nothing_pending() {
        for (timer, first_ticks) in [([1, 4], "t...t...t."), ([2, 3], "tt.tt.tt.t"), ([0, 4], "..........")] {
            let mut run = run_with(timer, &[]);
            for tick in first_ticks.chars() {
                let answer = if tick == 't' { taken(0) } else { idle(0) };
                assert_eq!(run.tick(), answer, "{timer:?} {}", run.clock());
            }
        }
    }

    #[test]
    fn a_taken_tick_gives_no_unit_and_moves_the_clock_alone() {
        let mut run = run_with([2, 4], &[[2, 1, 9, 2]]);
        assert_eq!(released(&mut run, 0, 2), (0, 9));
        let before = run.pending().to_vec();
        assert_eq!(run.tick(), taken(0));
        assert_eq!((run.clock(), run.pending()), (1, &before[..]));
        // A release while the tick at the clock is taken is like any other.
        assert_eq!(released(&mut run, 0, 1), (1, 10));
        assert_eq!(run.tick(), taken(0));
        assert_eq!(run.tick(), ran(0, false, 0));
        assert_eq!(run.tick(), ran(0, true, 0));
        assert_eq!(run.tick(), taken(0));
        assert_eq!(run.tick(), taken(0));
        assert_eq!(run.tick(), ran(1, true, 0));
        assert_eq!(run.tick(), idle(0));
        assert_eq!(run.tick(), taken(0));
    }

    #[test]
    fn jobs_become_late_in_taken_ticks_and_are_counted_once() {
        let mut run = run_with([3, 4], &[[2, 9, 2, 1], [1, 9, 3, 1], [1, 9, 4, 1]]);
        for (row, due) in [(0, 2), (0, 2), (1, 3), (2, 4)] {
            assert_eq!(run.release(row, 1).unwrap().due, due);
        }
        assert_eq!(run.tick(), taken(0));
        assert_eq!(run.tick(), taken(2));
        assert_eq!(run.tick(), taken(1));
        assert_eq!(run.tick(), ran(0, true, 1));
        assert_eq!(run.tick(), taken(0));
        assert_eq!(run.tick(), taken(0));
        assert_eq!(run.tick(), taken(0));
        assert_eq!(run.tick(), ran(1, true, 0));
    }

    #[test]
    fn all_ticks_but_the_last_of_each_p_are_taken() {
        let mut run = run_with([4_095, 4_096], &[[1, 4_096, 4_096, 1]]);
        for serial in 0..3 {
            assert_eq!(released(&mut run, 0, 1), (serial, 4_096 * (serial + 1)));
            for _ in 0..4_095 {
                assert_eq!(run.tick(), taken(0));
            }
            assert_eq!(run.tick(), ran(serial, true, 0));
        }
    }

    #[test]
    fn the_timer_counts_from_clock_0_over_time_crossed_in_one_go() {
        let mut run = run_with([1, 3], &[[1, 1, 1, 1]]);
        run.pass_until(LAST_TICK - 3);
        // One more than a multiple of three is 2^40, and so is LAST_TICK - 3.
        assert_eq!(run.tick(), idle(0));
        assert_eq!(run.tick(), idle(0));
        assert_eq!(run.tick(), taken(0));
        assert_eq!(run.tick(), Err(Reason::TimeTooLate));
    }

    #[test]
    fn the_clock_stops_at_its_end_where_the_tick_there_would_be_taken() {
        for timer in [[1, 2], [2, 3], [4_095, 4_096], [1, 4_096]] {
            assert!((1 << 40) % timer[1] < timer[0]);
            let mut run = run_with(timer, &[[2, 1, 1, 1]]);
            run.pass_until(LAST_TICK - 1);
            assert_eq!(released(&mut run, 0, 1), (0, LAST_TICK));
            let last_is_taken = (LAST_TICK - 1) % timer[1] < timer[0];
            assert_eq!(run.tick(), if last_is_taken { taken(1) } else { ran(0, true, 0) });
            assert_eq!(run.tick(), Err(Reason::TimeTooLate));
            assert_eq!(run.clock(), LAST_TICK);
        }
    }

    #[test]
    fn example_s1_by_release_and_tick() {
        let mut run = run_of([0, 1], &[], &[[1, 4]]);
        for (serial, (release, cost, due)) in [(30, 10, 70), (69, 20, 150), (140, 20, 230)].into_iter().enumerate() {
            while run.clock() < release {
                run.tick().unwrap();
            }
            assert_eq!(released(&mut run, 0, cost), (serial as u64, due));
        }
    }

    #[test]
    fn servers_are_numbered_after_the_rows_and_share_serials_and_places() {
        let mut run = run_of([0, 1], &[[1, 4, 4, 2]], &[[1, 4], [1, 2]]);
        assert_eq!(released(&mut run, 1, 1), (0, 4));
        assert_eq!(released(&mut run, 0, 2), (1, 4));
        assert_eq!(released(&mut run, 2, 1), (2, 2));
        assert_eq!(released(&mut run, 1, 2), (3, 12));
        assert_eq!(run.release(3, 1), Err(Reason::NoSuchRow));
        assert_eq!(run.release(1 << 32, 1), Err(Reason::NoSuchRow));
        let rows: Vec<u64> = run.pending().iter().map(|job| job.row).collect();
        assert_eq!(rows, [1, 0, 2, 1]);
        for (serial, finished) in [(2, true), (0, true), (1, false), (1, true), (3, false), (3, true)] {
            assert_eq!(run.tick(), ran(serial, finished, 0));
        }
        assert_eq!(run.tick(), idle(0));
    }

    #[test]
    fn the_cost_of_an_odd_job_is_1_to_4096() {
        let mut run = run_of([0, 1], &[[1, 4, 4, 2]], &[[1, 4_096]]);
        for cost in [0, MOST_ODD_COST + 1, 1 << 32, (1 << 32) + 1, 1 << 41, u64::MAX] {
            assert_eq!(run.release(1, cost), Err(Reason::CostOutOfRange));
        }
        assert_eq!(released(&mut run, 1, MOST_ODD_COST), (0, 1 << 24));
        assert_eq!(released(&mut run, 1, 1), (1, (1 << 24) + 4_096));
    }

    #[test]
    fn a_servers_last_due_time_counts_on_after_its_job_and_not_after_a_refused_one() {
        let mut run = run_of([0, 1], &[[2, 1, 256, 2]], &[[1, 100]]);
        assert_eq!(released(&mut run, 1, 1), (0, 100));
        assert_eq!(run.tick(), ran(0, true, 0));
        assert_eq!(run.tick(), idle(0));
        assert_eq!(released(&mut run, 1, 1), (1, 200));
        assert_eq!(run.release(1, 0), Err(Reason::CostOutOfRange));
        assert_eq!(run.release(1, 4_097), Err(Reason::CostOutOfRange));
        assert_eq!(run.release(2, 1), Err(Reason::NoSuchRow));
        for _ in 1..MOST_PENDING {
            run.release(0, 1).unwrap();
        }
        assert_eq!(run.release(1, 1), Err(Reason::PlacesFull));
        assert_eq!(run.held().last[0], 200);
        assert!(matches!(run.tick(), Ok(Ticked { given: Given::Ran { finished: true, .. }, late: 0 })));
        assert_eq!(released(&mut run, 1, 1), (MOST_PENDING as u64 + 1, 300));
        while !run.pending().is_empty() {
            run.tick().unwrap();
        }
        // A job that is released after the last due time is due as the first would be.
        run.pass_until(1_000);
        assert_eq!(run.release(1, 2).unwrap().due, 1_200);
    }

    #[test]
    fn an_odd_job_due_at_the_last_tick_and_one_later() {
        let mut run = run_of([0, 1], &[[2, 1, 10, 1]], &[[1, 10], [2, 5]]);
        run.pass_until(LAST_TICK - 20);
        assert_eq!(run.release(1, 3), Err(Reason::DueTooLate));
        assert_eq!(run.held().last, [0; 8]);
        assert_eq!(released(&mut run, 1, 1), (0, LAST_TICK - 10));
        assert_eq!(run.release(1, 2), Err(Reason::DueTooLate));
        assert_eq!(run.held().last[0], LAST_TICK - 10);
        assert_eq!(released(&mut run, 1, 1), (1, LAST_TICK));
        assert_eq!(run.held().last[0], LAST_TICK);
        assert_eq!(run.release(1, 1), Err(Reason::DueTooLate));
        // Eight units of the other server take twenty ticks, and seven take seventeen and a half.
        assert_eq!(released(&mut run, 2, 7), (2, LAST_TICK - 2));
        assert_eq!(run.release(2, 1), Err(Reason::DueTooLate));
        assert!(run.held().is_sound());
        let mut whole = run_of([0, 1], &[], &[[2, 5], [4_096, 4_096]]);
        whole.pass_until(LAST_TICK - 20);
        assert_eq!(whole.release(0, 9), Err(Reason::DueTooLate));
        assert_eq!(released(&mut whole, 0, 8), (0, LAST_TICK));
        assert_eq!(released(&mut whole, 1, 20), (1, LAST_TICK));
        assert_eq!(whole.release(1, 1), Err(Reason::DueTooLate));
    }

    #[test]
    fn odd_jobs_take_places_as_all_others_do() {
        let mut run = run_of([0, 1], &[[2, 1, 9, 1]], &[[1, 1], [1, 2]]);
        for serial in 0..MOST_PENDING as u64 {
            assert_eq!(run.release(serial % 3, 1).unwrap().serial, serial);
        }
        for row in 0..3 {
            assert_eq!(run.release(row, 1), Err(Reason::PlacesFull));
        }
        assert_eq!(run.release(3, 1), Err(Reason::NoSuchRow));
        assert_eq!(run.release(2, 4_097), Err(Reason::CostOutOfRange));
        // The place that a finished job frees can be used by an odd job at once.
        assert_eq!(run.tick(), ran(1, true, 0));
        assert_eq!(run.release(1, 1).unwrap().due, 86);
        assert_eq!(run.release(1, 1), Err(Reason::PlacesFull));
    }

    #[test]
    fn what_a_run_holds() {
        let mut run = run_of([1, 4], &[[2, 4, 4, 2]], &[[1, 4], [1, 2]]);
        let fresh = run.held();
        assert_eq!((fresh.row_count, fresh.server_count, fresh.pending_count, fresh.next_serial), (1, 2, 0, 0));
        assert_eq!((fresh.kept[0].count, &fresh.last[..]), (0, &[0; 8][..]));
        for (row, due) in [(0, 4), (0, 4), (0, 8), (2, 2), (2, 4)] {
            assert_eq!(run.release(row, 1).unwrap().due, due);
        }
        let held = run.held();
        assert_eq!((held.kept[0].count, &held.kept[0].dues[..3]), (2, &[4, 8, 0][..]));
        assert_eq!((&held.last[..3], held.pending_count, held.next_serial), (&[0, 4, 0][..], 5, 5));
        let lengths = [held.rows.len(), held.servers.len(), held.pending.len(), held.kept.len(), held.last.len()];
        assert_eq!(lengths, [64, 8, 256, 64, 8]);
    }

    #[test]
    fn an_end_answers_the_units_given_so_far_and_the_job_leaves() {
        let mut run = run_on(&[[4, 9, 9, 3]]);
        for serial in 0..4 {
            assert_eq!(released(&mut run, 0, 3), (serial, 9));
        }
        assert_eq!(run.end(2), Ok(0));
        assert_eq!(run.tick(), ran(0, false, 0));
        assert_eq!(run.end(0), Ok(1));
        assert_eq!(run.tick(), ran(1, false, 0));
        assert_eq!(run.tick(), ran(1, false, 0));
        // One unit is left.
        assert_eq!(run.end(1), Ok(2));
        let serials: Vec<u64> = run.pending().iter().map(|job| job.serial).collect();
        assert_eq!(serials, [3]);
        for finished in [false, false, true] {
            assert_eq!(run.tick(), ran(3, finished, 0));
        }
        assert_eq!(run.tick(), idle(0));
    }

    #[test]
    fn an_end_of_who_is_not_pending() {
        let mut run = run_of([0, 1], &[[2, 9, 9, 3]], &[[1, 4]]);
        for serial in [0, 1, 1 << 32, 1 << 40, u64::MAX] {
            assert_eq!(run.end(serial), Err(Reason::NotPending), "{serial}");
        }
        assert_eq!(released(&mut run, 0, 1), (0, 9));
        assert_eq!(released(&mut run, 1, 4), (1, 16));
        assert_eq!(run.tick(), ran(0, true, 0));
        assert_eq!(run.end(1), Ok(0));
        assert_eq!(released(&mut run, 0, 1), (2, 10));
        let before = run.held();
        // Job 0 has finished, job 1 was ended, and job 2 is pending. Serials are not cut short.
        for serial in [0, 1, 3, (1 << 32) + 2, (1 << 40) + 2, u64::MAX] {
            assert_eq!(run.end(serial), Err(Reason::NotPending), "{serial}");
            assert!(run.held() == before);
        }
        assert_eq!(run.tick(), ran(2, true, 0));
    }

    #[test]
    fn an_end_frees_its_place_at_once() {
        let mut run = run_of([0, 1], &[[MOST_X, 9, 9, 2]; ROWS_FOR_ALL_PLACES], &[[1, 1]]);
        let jobs = MOST_PENDING as u64;
        for serial in 0..jobs {
            assert_eq!(released(&mut run, serial / MOST_X, 2), (serial, 9));
        }
        for (serial, of) in [(jobs, 0), (jobs + 1, jobs - 1), (jobs + 2, 100), (jobs + 3, jobs + 2)] {
            assert_eq!(run.release(0, 1), Err(Reason::PlacesFull));
            assert_eq!(run.end(of), Ok(0));
            // The jobs in later places have moved down, and the place after the last of them holds zeros.
            let held = run.held();
            assert!(held.pending.windows(2).take(MOST_PENDING - 2).all(|two| two[0].serial < two[1].serial));
            assert_eq!((held.pending_count, held.pending[MOST_PENDING - 1].cost), (jobs - 1, 0));
            assert_eq!(run.release(4, 1).unwrap().serial, serial);
        }
        assert_eq!(run.release(4, 1), Err(Reason::PlacesFull));
    }

    #[test]
    fn release_and_end_300_times_at_one_clock() {
        for (rows, servers) in [(vec![[1, 1, 1, 1]], vec![]), (vec![], vec![[1, 1]])] {
            let mut run = run_of([0, 1], &rows, &servers);
            for serial in 0..300 {
                assert_eq!(released(&mut run, 0, 1), (serial, serial + 1));
                assert!(run.held().is_sound());
                assert_eq!(run.end(serial), Ok(0));
                assert!(run.held().is_sound());
            }
            assert_eq!(released(&mut run, 0, 1), (300, 301));
            assert_eq!((run.clock(), run.pending().len(), run.held().ended), (0, 1, 300));
            assert_eq!(run.tick(), ran(300, true, 0));
        }
    }

    #[test]
    fn the_due_time_of_an_ended_job_counts_on() {
        // In the second run no job is ended, and its due times are the same.
        for ends in [true, false] {
            let mut run = run_of([0, 1], &[[1, 4, 8, 2], [2, 5, 9, 2]], &[[1, 10]]);
            let dues = [(0, 8), (0, 12), (1, 9), (1, 9), (1, 14), (2, 10), (2, 20), (0, 16), (1, 14), (2, 30)];
            for (serial, (row, due)) in dues.into_iter().enumerate() {
                assert_eq!(released(&mut run, row, 1), (serial as u64, due));
                if ends {
                    assert_eq!(run.end(serial as u64), Ok(0));
                }
            }
            let held = run.held();
            assert_eq!((held.kept[0].count, held.kept[0].dues[0]), (1, 16));
            assert_eq!((held.kept[1].count, &held.kept[1].dues[..2]), (2, &[14, 14][..]));
            assert_eq!(held.last[0], 30);
        }
        // A job before the newest is ended.
        let mut run = run_of([0, 1], &[[2, 5, 9, 2]], &[[1, 10]]);
        for (row, due) in [(0, 9), (1, 10), (0, 9), (0, 14), (1, 20)] {
            assert_eq!(run.release(row, 1).unwrap().due, due);
        }
        for serial in [2, 1, 0] {
            assert_eq!(run.end(serial), Ok(0));
        }
        assert_eq!(released(&mut run, 0, 1), (5, 14));
        assert_eq!(released(&mut run, 0, 1), (6, 19));
        assert_eq!(released(&mut run, 1, 1), (7, 30));
    }

    #[test]
    fn an_ended_job_is_not_counted_late_and_not_served_again() {
        let mut run = run_on(&[[4, 9, 2, 2]]);
        for serial in 0..4 {
            assert_eq!(released(&mut run, 0, 2), (serial, 2));
        }
        assert_eq!(run.tick(), ran(0, false, 0));
        assert_eq!(run.end(0), Ok(1));
        assert_eq!(run.end(2), Ok(0));
        assert_eq!(run.tick(), ran(1, false, 2));
        // A late job can be ended, too.
        assert_eq!(run.end(1), Ok(1));
        assert_eq!(run.tick(), ran(3, false, 0));
        assert_eq!(run.tick(), ran(3, true, 0));
        assert_eq!(run.tick(), idle(0));
        let mut taken_run = run_with([2, 4], &[[2, 9, 2, 1]]);
        assert_eq!(released(&mut taken_run, 0, 1), (0, 2));
        assert_eq!(released(&mut taken_run, 0, 1), (1, 2));
        assert_eq!(taken_run.end(0), Ok(0));
        assert_eq!(taken_run.tick(), taken(0));
        assert_eq!(taken_run.tick(), taken(1));
        assert_eq!(taken_run.tick(), ran(1, true, 0));
    }

    #[test]
    fn an_end_changes_the_pending_jobs_and_the_count_of_ended_jobs_alone() {
        let mut run = run_of([1, 4], &[[2, 4, 9, 3]], &[[1, 4]]);
        for row in [0, 1, 0, 1] {
            run.release(row, 2).unwrap();
        }
        run.tick().unwrap();
        run.tick().unwrap();
        let mut expected = run.held();
        let ended = expected.pending.remove(1);
        expected.pending.push(NO_JOB);
        expected.pending_count -= 1;
        expected.ended += 1;
        assert_eq!(run.end(ended.serial), Ok(ended.cost - ended.left));
        assert!(run.held() == expected);
        assert_eq!((expected.clock, expected.next_serial, expected.ended), (2, 4, 1));
        // Releases and ticks leave the count alone.
        run.release(0, 1).unwrap();
        run.tick().unwrap();
        assert_eq!(run.held().ended, 1);
    }

    #[test]
    fn an_end_at_the_last_tick() {
        let mut run = run_with([1, 2], &[[2, 1, 1, 1]]);
        run.pass_until(LAST_TICK - 1);
        assert_eq!(released(&mut run, 0, 1), (0, LAST_TICK));
        assert_eq!(released(&mut run, 0, 1), (1, LAST_TICK));
        assert_eq!(run.tick(), ran(0, true, 1));
        assert_eq!(run.tick(), Err(Reason::TimeTooLate));
        assert_eq!(run.end(1), Ok(0));
        assert_eq!(run.end(1), Err(Reason::NotPending));
        assert_eq!(run.clock(), LAST_TICK);
        assert!(run.held().is_sound());
    }

    #[test]
    fn the_last_end_and_one_more() {
        let mut run = run_on(&[[4, 9, 9, 2]]);
        for serial in 0..3 {
            assert_eq!(released(&mut run, 0, 2), (serial, 9));
        }
        run.ended = MOST_ENDED - 1;
        assert_eq!(run.end(1), Ok(0));
        assert_eq!(run.ended, 1 << 40);
        let before = run.held();
        assert!(before.is_sound());
        for (serial, reason) in [
            (0, Reason::TooManyEnded),
            (1, Reason::NotPending),
            (2, Reason::TooManyEnded),
            (3, Reason::NotPending),
            (u64::MAX, Reason::NotPending),
        ] {
            assert_eq!(run.end(serial), Err(reason), "{serial}");
            assert!(run.held() == before);
        }
        assert_eq!((Reason::NotPending.number(), Reason::TooManyEnded.number()), (17, 18));
        // The other calls don't ask for it.
        assert_eq!(released(&mut run, 0, 1), (3, 9));
        assert_eq!(run.tick(), ran(0, false, 0));
    }

    #[test]
    fn on_feasible_tables_units_add_up_and_nobody_is_late_whoever_is_ended() {
        let tables = [
            ([0, 1], vec![[1, 4, 4, 2], [1, 6, 6, 3]], vec![]),
            ([0, 1], vec![[3, 6, 6, 2]], vec![]),
            ([1, 4], vec![[1, 8, 6, 2], [1, 8, 8, 3]], vec![]),
            ([0, 1], vec![[1, 4, 4, 2]], vec![[1, 4], [1, 4]]),
            ([1, 4], vec![], vec![[3, 4]]),
        ];
        let mut state: u64 = 7;
        let mut below = |bound: u64| {
            state = state.wrapping_mul(0x5851_f42d_4c95_7f2d).wrapping_add(1);
            (state >> 33) % bound
        };
        for (timer, rows, servers) in tables {
            let mut run = run_of(timer, &rows, &servers);
            assert_eq!(crate::verdict::verdict(&run.table), crate::verdict::Verdict::Feasible);
            // Of each serial, these are the units by the answers of the ticks.
            let mut units: Vec<u64> = vec![];
            let mut ended = vec![];
            for _ in 0..5_000 {
                match below(8) {
                    0..=2 => drop(run.release(below(3), 1 + below(3)).map(|_| units.push(0))),
                    3 => {
                        let serials: Vec<u64> = run.pending().iter().map(|job| job.serial).collect();
                        let some = serials.get(below(serials.len() as u64 + 1) as usize);
                        let serial = some.copied().unwrap_or(below(units.len() as u64 + 2));
                        if let Ok(given) = run.end(serial) {
                            assert_eq!(given, units[serial as usize]);
                            ended.push(serial);
                        }
                    }
                    _ => {
                        let ticked = run.tick().unwrap();
                        assert_eq!(ticked.late, 0);
                        if let Given::Ran { serial, .. } = ticked.given {
                            assert!(!ended.contains(&serial));
                            units[serial as usize] += 1;
                        }
                    }
                }
            }
            assert_eq!((run.ended, run.next_serial), (ended.len() as u64, units.len() as u64));
            assert!(ended.len() > 50 && units.len() > 200, "{} of {} jobs ended", ended.len(), units.len());
        }
    }
}
