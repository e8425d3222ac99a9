//! A run is a struct that is changed in place. Calls are three words of eight bytes each, and answers are four. In a trace,
//! as the probe library has it, nobody else can change the run, so it is always sound and is not tested for that. A live
//! run, as the host's calls have it, is tested for all that soundness asks before each call.

use super::jobs::{first, Job, Source, LATEST, PLACES};
use super::table::{read_table, Timer};
use super::Refused;

const WORD: usize = 8;
/// The first word of a release.
const RELEASE: u64 = 1;
/// The first word of an end. A call with any other first word is a tick.
const END: u64 = 3;

struct Run {
    timer: Timer,
    sources: Vec<Source>,
    clock: u64,
    pending: Vec<Job>,
    next: u64,
    ended: u64,
}

/// The words of an answer, or a refusal's number.
type Answer = Result<[u64; 4], u64>;

/// Plays calls on a fresh run of a table. It writes the answers of the start and of each call, as many as there is room
/// for, and returns how many it wrote.
pub fn trace(table: &[u8], calls: &[u8], answers: &mut [u8]) -> u32 {
    let words = |said: Answer| said.unwrap_or_else(|number| [6, number, 0, 0]);
    play(table, calls, answers, Run::call, words, |number, place| [6, number, place, 0])
}

/// Plays calls on a live run. For each it writes the status, the two numbers of the answer buffer, and 0.
pub fn live(table: &[u8], calls: &[u8], answers: &mut [u8]) -> u32 {
    let tested = |run: &mut Run, call: &[u8]| if run.sound() { run.call(call) } else { Err(11) };
    let words = |said: Answer| match said {
        Ok([2, serial, due, _]) => [34, serial, due, 0],
        Ok([kind @ 3..=5, serial, _, late]) => [kind + 32, serial, late, 0],
        Ok([7, _, _, late]) => [38, 0, late, 0],
        Ok([8, units, ..]) => [39, units, 0, 0],
        Ok(_) => [33, 0, 0, 0],
        Err(number) => [number, 0, 0, 0],
    };
    play(table, calls, answers, tested, words, |number, place| [number, place, 0, 0])
}

#[inline]
fn play(
    table: &[u8],
    calls: &[u8],
    answers: &mut [u8],
    call_on: impl Fn(&mut Run, &[u8]) -> Answer,
    words: impl Fn(Answer) -> [u64; 4],
    refused_start: impl Fn(u64, u64) -> [u64; 4],
) -> u32 {
    let mut room = answers.chunks_exact_mut(4 * WORD);
    let Some(start) = room.next() else {
        return 0;
    };
    let (timer, sources, answer) = match read_table(table) {
        Ok(table) => (table.timer, Source::all(&table.rows, &table.servers), words(Ok([1, 0, 0, 0]))),
        Err(Refused(number, place)) => (Timer { s: 0, p: 1 }, Vec::new(), refused_start(number.into(), place as u64)),
    };
    put(start, answer);
    let mut run = Run { timer, sources, clock: 0, pending: Vec::new(), next: 0, ended: 0 };
    let mut shown = 1;
    for (call, answer) in calls.chunks_exact(3 * WORD).zip(room) {
        put(answer, words(call_on(&mut run, call)));
        shown += 1;
    }
    shown
}

impl Run {
    #[inline]
    fn call(&mut self, call: &[u8]) -> Answer {
        match word(call, 0) {
            RELEASE => self.release(word(call, 1), word(call, 2)),
            END => self.end(word(call, 1)),
            _ => self.tick(),
        }
    }

    /// Says whether the run is sound: all that the rules ask of a run, whoever made it.
    fn sound(&self) -> bool {
        let pending = self.pending.len();
        self.timer.in_range()
            && self.clock <= LATEST
            && pending <= PLACES
            && self.ended <= LATEST
            && self.next <= self.clock + pending as u64 + self.ended
            && self.sources.iter().all(Source::sound)
            && self.pending.iter().all(|job| self.job_sound(job))
            && self.serials_differ()
    }

    #[inline]
    fn job_sound(&self, job: &Job) -> bool {
        let most = self.sources.get(job.row).map_or(0, Source::most);
        let cost = 1 <= job.cost && job.cost <= most;
        let left = 1 <= job.left && job.left <= job.cost;
        cost && left && job.release <= self.clock && job.due <= LATEST && job.serial < self.next
    }

    /// Serials that rise differ. Where they don't rise, each is compared with all after it.
    fn serials_differ(&self) -> bool {
        let pending = &self.pending;
        pending.windows(2).all(|two| two[0].serial < two[1].serial)
            || (0..pending.len()).all(|i| pending[i + 1..].iter().all(|job| job.serial != pending[i].serial))
    }

    /// Returns the words of the answer, or the refusal's number.
    fn release(&mut self, row: u64, cost: u64) -> Answer {
        if row >= self.sources.len() as u64 {
            return Err(6);
        }
        let row = row as usize;
        if cost < 1 || cost > self.sources[row].most() {
            return Err(7);
        }
        if self.pending.len() == PLACES {
            return Err(8);
        }
        let due = self.sources[row].due_time(self.clock, cost).ok_or(9u64)?;
        let serial = self.next;
        self.pending.push(Job { serial, row, release: self.clock, due, cost, left: cost });
        self.next += 1;
        Ok([2, serial, due, 0])
    }

    /// Returns the words of the answer, or the refusal's number.
    fn tick(&mut self) -> Answer {
        if self.clock == LATEST {
            return Err(10);
        }
        let taken = self.timer.takes(self.clock);
        self.clock += 1;
        if taken {
            return Ok([7, 0, 0, self.late()]);
        }
        if self.pending.is_empty() {
            return Ok([3, 0, 0, 0]);
        }
        let at = first(&self.pending);
        let job = &mut self.pending[at];
        job.left -= 1;
        let (serial, finished) = (job.serial, job.left == 0);
        if finished {
            self.pending.remove(at);
        }
        Ok([if finished { 5 } else { 4 }, serial, 0, self.late()])
    }

    /// Returns the words of the answer, or the refusal's number.
    fn end(&mut self, serial: u64) -> Answer {
        let at = self.pending.iter().position(|job| job.serial == serial).ok_or(17u64)?;
        if self.ended == LATEST {
            return Err(18);
        }
        self.ended += 1;
        let job = self.pending.remove(at);
        Ok([8, job.cost - job.left, 0, 0])
    }

    /// Returns how many pending jobs became late as the clock got to where it is.
    fn late(&self) -> u64 {
        self.pending.iter().filter(|job| job.due == self.clock).count() as u64
    }
}

fn word(words: &[u8], index: usize) -> u64 {
    let at = index * WORD;
    u64::from_le_bytes(words[at..at + WORD].try_into().unwrap())
}

fn put(place: &mut [u8], words: [u64; 4]) {
    for (bytes, word) in place.chunks_exact_mut(WORD).zip(words) {
        bytes.copy_from_slice(&word.to_le_bytes());
    }
}
