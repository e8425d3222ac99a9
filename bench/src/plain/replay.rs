//! Replay. Pending jobs stand in a vector, the due times of each row in a queue, and of a server there is its last due
//! time. A linear scan finds the job with the earliest due time, once for each tick that is not taken.

use super::jobs::{first, Job, Source, LATEST, PLACES};
use super::numbers::{bad_byte, read, write};
use super::table::{read_table, Table, Timer};
use super::Refused;

/// The longest log record has five numbers of six groups.
const RECORD: usize = 30;

struct Run<'a> {
    timer: Timer,
    clock: u64,
    pending: Vec<Job>,
    log: &'a mut [u8],
    length: usize,
    full: bool,
    late: u64,
}

/// Returns the log's length, and how many jobs were late.
pub fn replay(table: &[u8], script: &[u8], log: &mut [u8]) -> Result<(usize, u64), Refused> {
    let Table { timer, rows, servers, .. } = read_table(table)?;
    let mut sources = Source::all(&rows, &servers);
    let mut run = Run { timer, clock: 0, pending: Vec::new(), log, length: 0, full: false, late: 0 };
    let mut serial = 0;
    let mut at = 0;
    while at < script.len() {
        let start = at;
        let gap = number(script, &mut at)?;
        let time = run.clock + gap;
        if time > LATEST {
            return Err(Refused(10, start));
        }
        let place = at;
        let number_of_row = number(script, &mut at)?;
        if number_of_row >= sources.len() as u64 {
            return Err(Refused(6, place));
        }
        let row = number_of_row as usize;
        let place = at;
        let cost = number(script, &mut at)?;
        if cost < 1 || cost > sources[row].most() {
            return Err(Refused(7, place));
        }
        while run.clock < time {
            if run.pending.is_empty() {
                run.clock = time;
            } else {
                run.tick();
            }
        }
        if run.pending.len() == PLACES {
            return Err(Refused(8, start));
        }
        let due = sources[row].due_time(time, cost).ok_or(Refused(9, start))?;
        run.pending.push(Job { serial, row, release: time, due, cost, left: cost });
        serial += 1;
    }
    while !run.pending.is_empty() {
        if run.clock == LATEST {
            return Err(Refused(10, script.len()));
        }
        run.tick();
    }
    if run.full {
        return Err(Refused(12, script.len()));
    }
    Ok((run.length, run.late))
}

fn number(script: &[u8], at: &mut usize) -> Result<u64, Refused> {
    let (value, next) = read(script, *at).ok_or_else(|| Refused(14, bad_byte(script, *at)))?;
    *at = next;
    Ok(value)
}

impl Run<'_> {
    /// Gives one unit to the pending job with the earliest due time, and to the lowest serial among equal due times. A
    /// tick that is taken gives none.
    fn tick(&mut self) {
        let taken = self.timer.takes(self.clock);
        self.clock += 1;
        if taken {
            return;
        }
        let at = first(&self.pending);
        self.pending[at].left -= 1;
        if self.pending[at].left == 0 {
            let job = self.pending.remove(at);
            self.finish(job);
        }
    }

    fn finish(&mut self, job: Job) {
        if job.due < self.clock {
            self.late += 1;
        }
        if self.full {
            return;
        }
        let mut record = [0; RECORD];
        let mut n = 0;
        for value in [job.serial, job.row as u64, job.release, job.due, self.clock] {
            n += write(&mut record[n..], value);
        }
        match self.log.get_mut(self.length..self.length + n) {
            Some(rest) => {
                rest.copy_from_slice(&record[..n]);
                self.length += n;
            }
            None => self.full = true,
        }
    }
}
