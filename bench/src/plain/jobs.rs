//! This is what a replay and a run share: pending jobs, the choice among them, and due times.

use super::table::{Row, Server, C};
use std::collections::VecDeque;

/// No clock and no due time is above this.
pub const LATEST: u64 = 1 << 40;
/// No more jobs than this are pending.
pub const PLACES: usize = 256;

pub struct Job {
    pub serial: u64,
    pub row: usize,
    pub release: u64,
    pub due: u64,
    pub cost: u64,
    pub left: u64,
}

/// Returns the place of the job with the earliest due time, and with the lowest serial among equal due times.
#[inline]
pub fn first(pending: &[Job]) -> usize {
    let mut at = 0;
    for i in 1..pending.len() {
        let (job, best) = (&pending[i], &pending[at]);
        if (job.due, job.serial) < (best.due, best.serial) {
            at = i;
        }
    }
    at
}

/// What jobs are released of: a row with its kept due times, or a server with its last due time.
pub enum Source {
    Row { row: Row, kept: VecDeque<u64> },
    Server { server: Server, last: u64 },
}

impl Source {
    /// Returns the rows and then the servers, in the order of their row numbers. Nothing was released yet.
    pub fn all(rows: &[Row], servers: &[Server]) -> Vec<Source> {
        let rows = rows.iter().map(|&row| Source::Row { row, kept: VecDeque::new() });
        rows.chain(servers.iter().map(|&server| Source::Server { server, last: 0 })).collect()
    }

    /// Returns the most that a job may cost.
    #[inline]
    pub fn most(&self) -> u64 {
        match self {
            Source::Row { row, .. } => row.c,
            Source::Server { .. } => C,
        }
    }

    /// Says whether the row or server is in range, and what is kept of it no later than 2^40.
    #[inline]
    pub fn sound(&self) -> bool {
        match self {
            Source::Row { row, kept } => {
                row.in_range() && kept.len() as u64 <= row.x && kept.iter().all(|&due| due <= LATEST)
            }
            Source::Server { server, last } => server.in_range() && *last <= LATEST,
        }
    }

    /// Returns the due time of the next job and keeps it, or returns none where it would be above 2^40.
    #[inline]
    pub fn due_time(&mut self, release: u64, cost: u64) -> Option<u64> {
        match self {
            Source::Row { row, kept } => row_due_time(row, kept, release),
            Source::Server { server, last } => odd_due_time(server, last, release, cost),
        }
    }
}

/// Returns the due time of a server's next job, which is its last one then, or returns none where it would be above 2^40.
#[inline]
pub fn odd_due_time(server: &Server, last: &mut u64, release: u64, cost: u64) -> Option<u64> {
    let due = release.max(*last) + (cost * server.b).div_ceil(server.a);
    if due > LATEST {
        return None;
    }
    *last = due;
    Some(due)
}

#[inline]
fn row_due_time(row: &Row, kept: &mut VecDeque<u64>, release: u64) -> Option<u64> {
    let mut due = release + row.d;
    let spaced = kept.len() as u64 == row.x;
    if spaced {
        due = due.max(kept[0] + row.y);
    }
    if due > LATEST {
        return None;
    }
    if spaced {
        kept.pop_front();
    }
    kept.push_back(due);
    Some(due)
}
