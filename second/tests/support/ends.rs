//! Jobs that are ended early: random calls that end them, and what was met of them in a trace.

use super::random::Random;
use super::tables::Table;
use second::refusal::Reason;
use second::run::{Given, Run, Ticked, MOST_PENDING};
use second::trace::{kind, Answer, Call};
use std::collections::BTreeSet;

/// Calls that are played on a run while they are made, so that an end can be of a job that is pending, or that has
/// finished or was ended before.
pub struct Calls {
    run: Run,
    made: Vec<Call>,
    released: u64,
    finished: Vec<u64>,
    ended: Vec<u64>,
}

impl Calls {
    pub fn on(table: &[u8]) -> Calls {
        Calls { run: Run::start(table).0, made: vec![], released: 0, finished: vec![], ended: vec![] }
    }

    pub fn made(self) -> Vec<Call> {
        self.made
    }

    pub fn push(&mut self, call: Call) {
        match call {
            Call::Release { row, cost } => self.released += u64::from(self.run.release(row, cost).is_ok()),
            Call::Tick => {
                if let Ok(Ticked { given: Given::Ran { serial, finished: true }, .. }) = self.run.tick() {
                    self.finished.push(serial);
                }
            }
            Call::End { serial } => {
                if self.run.end(serial).is_ok() {
                    self.ended.push(serial);
                }
            }
        }
        self.made.push(call);
    }

    /// Ends a job: mostly one that is pending, and otherwise one that never was or is no more.
    pub fn push_end(&mut self, random: &mut Random) {
        let pending = self.run.pending();
        let any = random.below(self.released + 1);
        let serial = match random.below(12) {
            0 => random.pick(&[self.released, self.released + 1, (1 << 32) + any, 1 << 40, u64::MAX]),
            1 if !self.finished.is_empty() => random.pick(&self.finished),
            2 if !self.ended.is_empty() => random.pick(&self.ended),
            // The job that the next unit would go to has often had some already.
            3..=5 if !pending.is_empty() => pending.iter().min_by_key(|job| (job.due, job.serial)).unwrap().serial,
            6 if !pending.is_empty() => pending[pending.len() - 1].serial,
            7.. if !pending.is_empty() => pending[random.index(pending.len())].serial,
            _ => any,
        };
        self.push(Call::End { serial });
    }

    /// Releases a job and ends the newest.
    pub fn push_release_and_end(&mut self, release: Call) {
        self.push(release);
        self.push(Call::End { serial: self.released.saturating_sub(1) });
    }
}

/// What was met of jobs that were ended early, or were to be.
#[derive(Clone, Copy, Debug, PartialEq, Eq, PartialOrd, Ord)]
pub enum Met {
    /// A job was ended that was given no unit.
    NoUnit,
    /// One was ended that had more than one unit, and more than one left.
    SomeUnits,
    /// One was ended that had only one unit left, of several.
    OneUnitLeft,
    /// A job of a row was ended, and a job of a server.
    OfRow,
    OfServer,
    /// One was ended when it was late already.
    Late,
    /// The serial was not given out yet.
    Unknown,
    /// So it was, and it would be that of a pending job, were it cut to 32 bits.
    UnknownAbove32Bits,
    /// The job had finished.
    Finished,
    /// The job had been ended before.
    EndedBefore,
    /// All places were taken, and after an end a release was accepted.
    PlaceUsedAgain,
    /// More jobs were ended at one clock than there are places, and then one was released.
    ManyAtOneClock,
    /// A tick took the clock to the due time of an ended job.
    DueTimeReached,
    /// A job was due later because of an ended job of its row, or of its server.
    DueTimeOfRow,
    DueTimeOfServer,
    /// A tick gave a unit after an end.
    UnitAfterwards,
}

pub const ALL: [Met; 16] = [
    Met::NoUnit,
    Met::SomeUnits,
    Met::OneUnitLeft,
    Met::OfRow,
    Met::OfServer,
    Met::Late,
    Met::Unknown,
    Met::UnknownAbove32Bits,
    Met::Finished,
    Met::EndedBefore,
    Met::PlaceUsedAgain,
    Met::ManyAtOneClock,
    Met::DueTimeReached,
    Met::DueTimeOfRow,
    Met::DueTimeOfServer,
    Met::UnitAfterwards,
];

#[derive(Clone, Copy, PartialEq, Eq)]
enum State {
    Pending,
    Finished,
    Ended,
}

struct Job {
    row: usize,
    cost: u64,
    due: u64,
    state: State,
}

/// Looks at a trace on a table that was accepted.
pub fn met(table: &Table, calls: &[Call], answers: &[Answer]) -> BTreeSet<Met> {
    let mut met = BTreeSet::new();
    let mut jobs: Vec<Job> = vec![];
    let mut clock = 0;
    let mut ended_at_clock = 0;
    let mut full_before_end = false;
    for (call, answer) in calls.iter().zip(&answers[1..]) {
        let pending = jobs.iter().filter(|job| job.state == State::Pending).count();
        match (*call, *answer) {
            (Call::Release { row, cost }, [kind::RELEASED, _, due, _]) => {
                let row = row as usize;
                if full_before_end {
                    met.insert(Met::PlaceUsedAgain);
                }
                if ended_at_clock > MOST_PENDING {
                    met.insert(Met::ManyAtOneClock);
                }
                let mut earlier = jobs.iter().rev().filter(|job| job.row == row);
                match table.rows.get(row) {
                    Some(&[x, _, d, _]) => {
                        let spaced = earlier.nth(x as usize - 1).is_some_and(|job| job.state == State::Ended);
                        if spaced && due > clock + d {
                            met.insert(Met::DueTimeOfRow);
                        }
                    }
                    None => {
                        if earlier.next().is_some_and(|job| job.state == State::Ended && job.due > clock) {
                            met.insert(Met::DueTimeOfServer);
                        }
                    }
                }
                jobs.push(Job { row, cost, due, state: State::Pending });
            }
            (Call::Tick, [kind, serial, ..]) if kind != kind::REFUSED => {
                clock += 1;
                ended_at_clock = 0;
                if kind == kind::FINISHED {
                    jobs[serial as usize].state = State::Finished;
                }
                let has_ended = jobs.iter().any(|job| job.state == State::Ended);
                if has_ended && [kind::RAN, kind::FINISHED].contains(&kind) {
                    met.insert(Met::UnitAfterwards);
                }
                if jobs.iter().any(|job| job.state == State::Ended && job.due == clock) {
                    met.insert(Met::DueTimeReached);
                }
            }
            (Call::End { serial }, [kind::ENDED, units, ..]) => {
                let job = &mut jobs[serial as usize];
                job.state = State::Ended;
                ended_at_clock += 1;
                met.insert(if job.row < table.rows.len() { Met::OfRow } else { Met::OfServer });
                met.extend((units == 0).then_some(Met::NoUnit));
                met.extend((units > 1 && units + 1 < job.cost).then_some(Met::SomeUnits));
                met.extend((units > 0 && units + 1 == job.cost).then_some(Met::OneUnitLeft));
                met.extend((job.due <= clock).then_some(Met::Late));
            }
            (Call::End { serial }, [_, number, ..]) if number == u64::from(Reason::NotPending.number()) => {
                met.insert(match jobs.get(serial as usize).map(|job| job.state) {
                    None if serial > u32::MAX.into() => {
                        let cut = jobs.get(serial as u32 as usize).map(|job| job.state);
                        if cut == Some(State::Pending) {
                            Met::UnknownAbove32Bits
                        } else {
                            Met::Unknown
                        }
                    }
                    None => Met::Unknown,
                    Some(State::Finished) => Met::Finished,
                    Some(_) => Met::EndedBefore,
                });
            }
            _ => {}
        }
        full_before_end = pending == MOST_PENDING && answer[0] == kind::ENDED;
    }
    met
}
