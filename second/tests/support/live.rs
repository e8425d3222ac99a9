//! A live run in two memories: the library's, and the second program's. Each call is made on both.

use super::case::hex;
use super::fenced::Fenced;
use super::random::Random;
use super::words::{self, Field};
use second::memory::{self, BYTES, WORDS};
use second::refusal::Reason;
use second::sound::Held;
use second::{live, trace};
use std::collections::{BTreeMap, BTreeSet};

mod library {
    extern "C" {
        pub fn run_start(table: *const u8, table_len: usize, run: *mut u8, answer: *mut u8, answer_len: usize) -> u32;
        pub fn run_release(run: *mut u8, row: u64, cost: u64, answer: *mut u8, answer_len: usize) -> u32;
        pub fn run_tick(run: *mut u8, answer: *mut u8, answer_len: usize) -> u32;
        pub fn run_end(run: *mut u8, serial: u64, answer: *mut u8, answer_len: usize) -> u32;
    }
}

#[derive(Clone, Debug)]
pub enum Call {
    Start(Vec<u8>),
    OnRun(trace::Call),
}

impl Call {
    pub fn name(&self) -> &'static str {
        match self {
            Call::Start(_) => "run_start",
            Call::OnRun(trace::Call::Release { .. }) => "run_release",
            Call::OnRun(trace::Call::Tick) => "run_tick",
            Call::OnRun(trace::Call::End { .. }) => "run_end",
        }
    }

    fn by_second_program(&self, memory: &mut [u8], answer: &mut [u8]) -> u32 {
        match self {
            Call::Start(table) => live::start(table, memory, answer),
            Call::OnRun(trace::Call::Release { row, cost }) => live::release(memory, *row, *cost, answer),
            Call::OnRun(trace::Call::Tick) => live::tick(memory, answer),
            Call::OnRun(trace::Call::End { serial }) => live::end(memory, *serial, answer),
        }
    }

    /// Returns the status, and whether nothing was touched but the run's memory and the answer buffer.
    fn by_library(&self, memory: &mut Fenced, answer: &mut Fenced, random: &mut Random) -> (u32, bool) {
        let bytes: &[u8] = if let Call::Start(table) = self { table } else { &[] };
        let mut table = Fenced::around(bytes, random);
        let before = [table.clone(), answer.clone()];
        let (run, length) = (memory.pointer(), answer.len());
        // SAFETY: each pointer is to a buffer of its own, or null with length 0, and 8 divides the address of the run.
        let status = unsafe {
            match self {
                Call::Start(_) => library::run_start(table.pointer(), table.len(), run, answer.pointer(), length),
                Call::OnRun(trace::Call::Release { row, cost }) => {
                    library::run_release(run, *row, *cost, answer.pointer(), length)
                }
                Call::OnRun(trace::Call::Tick) => library::run_tick(run, answer.pointer(), length),
                Call::OnRun(trace::Call::End { serial }) => library::run_end(run, *serial, answer.pointer(), length),
            }
        };
        (status, table.same_whole_as(&before[0]) && answer.same_fence_as(&before[1]))
    }
}

/// A status and the two numbers of the answer buffer. They are 0 where nothing was written there.
pub type Said = (u32, u64, u64);

/// How often each status was met by each call, and how a memory was changed.
#[derive(Default)]
pub struct Met {
    pub statuses: BTreeMap<(&'static str, u32), u64>,
    /// The lengths of answer buffers that were refused, on a sound run or another.
    pub lengths: BTreeSet<(&'static str, usize, bool)>,
    /// The numbers that were changed, by their place in the memory.
    pub words: BTreeSet<usize>,
    /// Whether a number was in use that was changed, and whether the run was sound then, and how often.
    pub changes: BTreeMap<(Field, bool, bool), u64>,
    /// A number in use was changed to its limit or to one more, and the run was sound then or not.
    pub limits: BTreeSet<(Field, u64, bool)>,
    /// This many ticks gave units in runs on feasible tables, of which nobody else had written to the memory.
    pub promised: u64,
}

impl Met {
    pub fn total(&self) -> u64 {
        self.statuses.values().sum()
    }

    /// Counts a change of one number of a run that was sound, and whether it still is.
    fn count_change(&mut self, place: usize, value: u64, before: &Held, sound: bool) {
        let word = words::ALL[place];
        let in_use = word.is_in_use(before);
        self.words.insert(place);
        *self.changes.entry((word.field, in_use, sound)).or_default() += 1;
        if in_use && word.field.limit().is_some_and(|limit| value == limit || value == limit + 1) {
            self.limits.insert((word.field, value, sound));
        }
    }
}

/// What has happened to a run so far.
#[derive(Debug)]
#[allow(dead_code)]
enum Step {
    Wrote { word: usize, value: u64 },
    Called { call: Call, answer_length: usize, said: Said },
}

pub struct Live {
    name: String,
    second: Vec<u8>,
    library: Fenced,
    first: Fenced,
    steps: Vec<Step>,
}

impl Live {
    /// Takes a memory for a run, whatever stands there.
    pub fn on(memory: &[u8], name: String, random: &mut Random) -> Live {
        let library = Fenced::aligned(memory, random);
        Live { name, second: memory.to_vec(), first: library.clone(), library, steps: vec![] }
    }

    pub fn memory(&self) -> &[u8] {
        &self.second
    }

    pub fn held(&self) -> Held {
        memory::read(&self.second)
    }

    pub fn word(&self, word: usize) -> u64 {
        number(&self.second[8 * word..][..8])
    }

    /// Writes a number into both memories.
    pub fn write(&mut self, word: usize, value: u64) {
        for memory in [&mut self.second[..], self.library.lent_mut()] {
            memory[8 * word..][..8].copy_from_slice(&value.to_le_bytes());
        }
        self.steps.push(Step::Wrote { word, value });
    }

    /// Writes a number into both memories of a sound run, and returns whether it still is sound.
    pub fn change(&mut self, word: usize, value: u64, met: &mut Met) -> bool {
        let before = self.held();
        self.write(word, value);
        let sound = self.held().is_sound();
        met.count_change(word, value, &before, sound);
        sound
    }

    /// Puts back what stood in both memories at first.
    pub fn restore(&mut self) {
        self.second.copy_from_slice(self.first.lent());
        self.library.lent_mut().copy_from_slice(self.first.lent());
        self.steps.clear();
    }

    /// Makes a call on both memories, and compares all that a host can see afterwards.
    pub fn call(&mut self, call: Call, answer_length: usize, random: &mut Random, met: &mut Met) -> Said {
        let mut expected = random.bytes(answer_length);
        let mut found = Fenced::around(&expected, random);
        if answer_length != 16 {
            met.lengths.insert((call.name(), answer_length, self.held().is_sound()));
        }
        let status = call.by_second_program(&mut self.second, &mut expected);
        let (by_library, rest_stands) = call.by_library(&mut self.library, &mut found, random);
        let rest_stands = rest_stands && self.library.same_fence_as(&self.first);
        if by_library != status || found.lent() != expected || self.library.lent() != self.second || !rest_stands {
            let differing: Vec<String> = (0..WORDS).filter_map(|word| self.difference(word)).collect();
            panic!(
                "MISMATCH in {}: {call:?}\nafter {:?}\nsecond program: {status}, answer {}\nlibrary: {by_library}, \
                 answer {}\nbytes around the buffers {}\nnumbers in the memory that differ: {differing:?}",
                self.name,
                self.steps,
                hex(&expected),
                hex(found.lent()),
                if rest_stands { "as before" } else { "CHANGED" },
            );
        }
        *met.statuses.entry((call.name(), status)).or_default() += 1;
        let said = match answer_length {
            16 => (status, number(&expected[..8]), number(&expected[8..])),
            _ => (status, 0, 0),
        };
        self.steps.push(Step::Called { call, answer_length, said });
        said
    }

    fn difference(&self, word: usize) -> Option<String> {
        let [second, library] = [&self.second[..], self.library.lent()].map(|memory| number(&memory[8 * word..][..8]));
        let name = words::ALL[word];
        (second != library).then(|| format!("{word} {name:?}: {second}, {library}"))
    }
}

fn number(bytes: &[u8]) -> u64 {
    u64::from_le_bytes(bytes.try_into().unwrap())
}

/// The statuses of each call.
pub fn statuses() -> BTreeSet<(&'static str, u32)> {
    let of_start = [1, 2, 3, 4, 5, 13, 16, live::STARTED].map(|status| ("run_start", status));
    let of_release = [6, 7, 8, 9, 11, 13, live::ACCEPTED].map(|status| ("run_release", status));
    let of_tick = [10, 11, 13, live::IDLE, live::RAN, live::FINISHED, live::TAKEN].map(|status| ("run_tick", status));
    let of_end = [11, 13, 17, 18, live::ENDED].map(|status| ("run_end", status));
    of_start.into_iter().chain(of_release).chain(of_tick).chain(of_end).collect()
}

pub fn is_not_sound(status: u32) -> bool {
    status == Reason::RunNotSound.number()
}

pub fn zeros() -> Vec<u8> {
    vec![0; BYTES]
}
