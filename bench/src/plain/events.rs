//! Replay by events, as an expert would write it for speed. Pending jobs stand in a heap by due time and serial. The job
//! on top gets all its free ticks in one go, up to its finish or to the next record. Only free ticks are counted, so that
//! a stretch of taken ticks is crossed by arithmetic. Due times stand in a ring for each row, of a server there is its
//! last one, and the log is a vector.

use super::jobs::{odd_due_time, LATEST, PLACES};
use super::numbers::{bad_byte, read, write};
use super::table::{read_table, Row, Server, Table, Timer, C};
use super::Refused;
use std::cmp::Ordering;
use std::collections::binary_heap::PeekMut;
use std::collections::BinaryHeap;

/// The longest log record has five numbers of six groups.
const RECORD: usize = 30;

/// A pending job. The greatest of a heap is the one with the earliest due time, and with the lowest serial among equal
/// due times.
struct Job {
    due: u64,
    serial: u64,
    release: u64,
    row: u32,
    left: u32,
}

impl Ord for Job {
    fn cmp(&self, other: &Job) -> Ordering {
        (other.due, other.serial).cmp(&(self.due, self.serial))
    }
}

impl PartialOrd for Job {
    fn partial_cmp(&self, other: &Job) -> Option<Ordering> {
        Some(self.cmp(other))
    }
}

impl PartialEq for Job {
    fn eq(&self, other: &Job) -> bool {
        self.cmp(other).is_eq()
    }
}

impl Eq for Job {}

/// What jobs are released of. Its place in a vector is its row number.
enum Source {
    Row(Ring),
    Server { server: Server, last: u64 },
}

impl Source {
    fn of_row(row: Row) -> Source {
        Source::Row(Ring { row, times: Vec::with_capacity(row.x as usize), oldest: 0 })
    }

    fn of_server(server: Server) -> Source {
        Source::Server { server, last: 0 }
    }

    /// Returns the most that a job may cost.
    fn most(&self) -> u64 {
        match self {
            Source::Row(ring) => ring.row.c,
            Source::Server { .. } => C,
        }
    }

    /// Returns the due time of the next job and keeps it, or returns none where it would be above 2^40.
    fn due_time(&mut self, release: u64, cost: u64) -> Option<u64> {
        match self {
            Source::Row(ring) => ring.due_time(release),
            Source::Server { server, last } => odd_due_time(server, last, release, cost),
        }
    }
}

/// A row with the due times of its newest jobs, at most x of them.
struct Ring {
    row: Row,
    times: Vec<u64>,
    oldest: usize,
}

impl Ring {
    /// Returns the due time of the row's next job and keeps it, or returns none where it would be above 2^40.
    fn due_time(&mut self, release: u64) -> Option<u64> {
        let plain = release + self.row.d;
        if (self.times.len() as u64) < self.row.x {
            if plain > LATEST {
                return None;
            }
            self.times.push(plain);
            return Some(plain);
        }
        let oldest = &mut self.times[self.oldest];
        let due = plain.max(*oldest + self.row.y);
        if due > LATEST {
            return None;
        }
        *oldest = due;
        self.oldest += 1;
        if self.oldest == self.times.len() {
            self.oldest = 0;
        }
        Some(due)
    }
}

impl Timer {
    /// Returns how many of the ticks before a time are free.
    fn free_before(&self, time: u64) -> u64 {
        if self.s == 0 {
            return time;
        }
        time / self.p * (self.p - self.s) + (time % self.p).saturating_sub(self.s)
    }

    /// Returns the time right after a free tick, which is counted from 0.
    fn after(&self, tick: u64) -> u64 {
        if self.s == 0 {
            return tick + 1;
        }
        let free = self.p - self.s;
        tick / free * self.p + self.s + tick % free + 1
    }
}

struct Play<'a> {
    timer: Timer,
    /// So many free ticks have gone by.
    free: u64,
    pending: BinaryHeap<Job>,
    log: &'a mut Vec<u8>,
    late: u64,
}

/// Replays a script on a table. The log is written into a vector, and it may be so many bytes long. Returns how many jobs
/// were late.
pub fn replay(table: &[u8], script: &[u8], log: &mut Vec<u8>, room: usize) -> Result<u64, Refused> {
    let Table { timer, rows, servers, .. } = read_table(table)?;
    let rows = rows.into_iter().map(Source::of_row);
    let mut sources: Vec<Source> = rows.chain(servers.into_iter().map(Source::of_server)).collect();
    log.clear();
    let mut play = Play { timer, free: 0, pending: BinaryHeap::with_capacity(PLACES), log, late: 0 };
    let mut time = 0;
    let mut serial = 0;
    let mut at = 0;
    while at < script.len() {
        let start = at;
        let gap = number(script, &mut at)?;
        time += gap;
        if time > LATEST {
            return Err(Refused(10, start));
        }
        let place = at;
        let row = number(script, &mut at)?;
        let Some(source) = sources.get_mut(row as usize) else {
            return Err(Refused(6, place));
        };
        let place = at;
        let cost = number(script, &mut at)?;
        if cost < 1 || cost > source.most() {
            return Err(Refused(7, place));
        }
        if gap > 0 {
            play.run_until(time);
        }
        if play.pending.len() == PLACES {
            return Err(Refused(8, start));
        }
        let due = source.due_time(time, cost).ok_or(Refused(9, start))?;
        play.pending.push(Job { due, serial, release: time, row: row as u32, left: cost as u32 });
        serial += 1;
    }
    play.run_until(LATEST);
    if !play.pending.is_empty() {
        return Err(Refused(10, script.len()));
    }
    if play.log.len() > room {
        return Err(Refused(12, script.len()));
    }
    Ok(play.late)
}

fn number(script: &[u8], at: &mut usize) -> Result<u64, Refused> {
    let (value, next) = read(script, *at).ok_or_else(|| Refused(14, bad_byte(script, *at)))?;
    *at = next;
    Ok(value)
}

impl Play<'_> {
    /// Gives all free ticks before a time to pending jobs, as long as there are any.
    fn run_until(&mut self, time: u64) {
        let end = self.timer.free_before(time);
        while let Some(mut job) = self.pending.peek_mut() {
            let rest = end - self.free;
            if rest < u64::from(job.left) {
                if rest > 0 {
                    job.left -= rest as u32;
                }
                break;
            }
            self.free += u64::from(job.left);
            let job = PeekMut::pop(job);
            let finish = self.timer.after(self.free - 1);
            if job.due < finish {
                self.late += 1;
            }
            let mut record = [0; RECORD];
            let mut n = 0;
            for value in [job.serial, u64::from(job.row), job.release, job.due, finish] {
                n += write(&mut record[n..], value);
            }
            self.log.extend_from_slice(&record[..n]);
        }
        self.free = end;
    }
}
