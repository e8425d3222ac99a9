//! A tally of what the comparisons came across.

use super::bad_bytes::Met;
use super::case::{Call, Case, Outcome};
use super::tables::{self, last_of_first_period};
use super::{hopeless, servers, timers};
use second::host::{FEASIBLE, IN_TIME, LATE, OVERLOADED};
use second::run::MOST_PENDING;
use second::table::{self, MOST_ROWS, MOST_SERVERS};
use second::verdict::{verdict, Verdict};
use std::collections::{BTreeMap, BTreeSet};

pub const TABLE_MISSPELLED: u32 = 1;
pub const SCRIPT_MISSPELLED: u32 = 14;
const TOO_MANY_ROWS: u32 = 2;
const PLACES_FULL: u32 = 8;
const ANSWER_NOT_16_BYTES: u32 = 13;

/// What a comparison met near the limit of rows, the limit of servers or the limit of pending jobs, near the rule that c is
/// at most d, of the timer, or of the servers.
#[derive(Clone, Copy, Debug, PartialEq, Eq, PartialOrd, Ord)]
pub enum Limit {
    /// A table of so many rows was accepted.
    Rows(u64),
    /// A table of so many rows was refused with 2.
    TooManyRows(u64),
    /// A table of so many servers was accepted.
    Servers(u64),
    /// A table of so many servers was refused with 2.
    TooManyServers(u64),
    /// At most so many jobs were pending at a time in a replay that was not refused.
    Pending(usize),
    /// A release was refused with 8.
    PlacesFull,
    /// A table had this on either side of the rule that c is at most d.
    Hopeless(hopeless::Met),
    /// A call had this to do with the timer.
    Timer(timers::Met),
    /// A call had this to do with the servers.
    Server(servers::Met),
}

#[derive(Default)]
pub struct Tally {
    statuses: BTreeMap<(Call, u32), u64>,
    /// By call and refusal.
    bad_bytes: BTreeMap<(Call, u32), Met>,
    limits: BTreeMap<(Call, Limit), u64>,
    /// This many overloaded tables had a witness past H + the largest d.
    pub late_witnesses: u64,
}

impl Tally {
    pub fn count(&mut self, case: &Case, outcome: &Outcome) {
        let status = outcome.status;
        *self.statuses.entry((case.call, status)).or_default() += 1;
        if status == OVERLOADED && has_late_witness(&case.table) {
            self.late_witnesses += 1;
        }
        for limit in limits(case, outcome) {
            *self.limits.entry((case.call, limit)).or_default() += 1;
        }
        let misspelled = match status {
            TABLE_MISSPELLED => &case.table,
            SCRIPT_MISSPELLED => &case.script,
            _ => return,
        };
        self.bad_bytes.entry((case.call, status)).or_default().count(misspelled, outcome.first());
    }

    pub fn add(&mut self, other: &Tally) {
        for (&key, count) in &other.statuses {
            *self.statuses.entry(key).or_default() += count;
        }
        for (&key, met) in &other.bad_bytes {
            self.bad_bytes.entry(key).or_default().add(met);
        }
        for (&key, count) in &other.limits {
            *self.limits.entry(key).or_default() += count;
        }
        self.late_witnesses += other.late_witnesses;
    }

    pub fn total(&self) -> u64 {
        self.statuses.values().sum()
    }

    /// Says each status of a call, and how often it was met.
    pub fn histogram(&self, call: Call) -> String {
        let of_call = self.statuses.iter().filter(|((of, _), _)| *of == call);
        let parts: Vec<String> = of_call.map(|((_, status), count)| format!("{status}: {count}")).collect();
        parts.join(", ")
    }

    /// Returns those of a call's possible statuses that were never met.
    pub fn missing(&self, call: Call, possible: &[u32]) -> Vec<u32> {
        possible.iter().copied().filter(|&status| !self.statuses.contains_key(&(call, status))).collect()
    }

    /// Says what a call met at the limits, one less and one more, and how often.
    pub fn limits(&self, call: Call) -> String {
        let wanted = limits_wanted(call);
        let counts = wanted.iter().map(|limit| (limit, self.limits.get(&(call, *limit)).unwrap_or(&0)));
        let parts: Vec<String> = counts.map(|(limit, count)| format!("{limit:?}: {count}")).collect();
        parts.join(", ")
    }

    /// Returns what a call never met at the limits, one less and one more.
    pub fn missing_limits(&self, call: Call) -> Vec<Limit> {
        let met = |limit: &Limit| self.limits.contains_key(&(call, *limit));
        limits_wanted(call).into_iter().filter(|limit| !met(limit)).collect()
    }

    /// The bad bytes that a call refused with one of the two statuses for them, of which all were met.
    pub fn bad_bytes(&self, call: Call, status: u32) -> &Met {
        &self.bad_bytes[&(call, status)]
    }
}

fn has_late_witness(bytes: &[u8]) -> bool {
    let table = table::read(bytes).expect("an overloaded table is a table");
    matches!(verdict(&table), Verdict::Overloaded { length, .. } if length > last_of_first_period(&table))
}

fn limits_wanted(call: Call) -> BTreeSet<Limit> {
    let counts = [
        Limit::Rows(MOST_ROWS - 1),
        Limit::Rows(MOST_ROWS),
        Limit::TooManyRows(MOST_ROWS + 1),
        Limit::Servers(0),
        Limit::Servers(MOST_SERVERS - 1),
        Limit::Servers(MOST_SERVERS),
        Limit::TooManyServers(MOST_SERVERS + 1),
        Limit::TooManyServers(MOST_ROWS),
    ];
    let pending = [Limit::Pending(MOST_PENDING - 1), Limit::Pending(MOST_PENDING), Limit::PlacesFull];
    let of_replay = pending.into_iter().filter(|_| call == Call::Replay);
    let of_timer = timers::wanted(call).into_iter().map(Limit::Timer);
    let hopeless = hopeless::wanted().into_iter().map(Limit::Hopeless);
    let of_servers = servers::wanted(call).into_iter().map(Limit::Server);
    counts.into_iter().chain(of_replay).chain(hopeless).chain(of_timer).chain(of_servers).collect()
}

fn limits(case: &Case, outcome: &Outcome) -> Vec<Limit> {
    if outcome.status == ANSWER_NOT_16_BYTES {
        return vec![];
    }
    let rows = tables::row_count(&case.table).unwrap_or(0);
    let servers = tables::server_count(&case.table).unwrap_or(0);
    let accepted = [Limit::Rows(rows), Limit::Servers(servers)];
    let at_the_counts = match outcome.status {
        FEASIBLE | OVERLOADED => accepted.to_vec(),
        IN_TIME | LATE => [&accepted[..], &[Limit::Pending(most_pending(&outcome.log[..outcome.first()]))]].concat(),
        TOO_MANY_ROWS if rows > MOST_ROWS => vec![Limit::TooManyRows(rows)],
        TOO_MANY_ROWS => vec![Limit::TooManyServers(servers)],
        PLACES_FULL => [&accepted[..], &[Limit::PlacesFull]].concat(),
        _ => vec![],
    };
    let hopeless = hopeless::met(&case.table).into_iter().map(Limit::Hopeless);
    let of_timer = timers::met(case, outcome).into_iter().map(Limit::Timer);
    let of_servers = servers::met(case, outcome).into_iter().map(Limit::Server);
    at_the_counts.into_iter().chain(hopeless).chain(of_timer).chain(of_servers).collect()
}

/// Returns how many jobs of a whole log were pending at a time, at most. A job is pending from its release until its
/// finish, and a place that is freed can be used at once.
pub fn most_pending(log: &[u8]) -> usize {
    let jobs = timers::jobs_of(log);
    let mut changes: Vec<(u64, i64)> = jobs.iter().flat_map(|job| [(job[2], 1), (job[4], -1)]).collect();
    changes.sort();
    let pending = changes.iter().scan(0, |pending, &(_, change)| {
        *pending += change;
        Some(*pending)
    });
    pending.max().unwrap_or(0) as usize
}
