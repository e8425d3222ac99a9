//! One call of the host, made to the library and to the second program.

use super::fenced::Fenced;
use super::random::Random;
use second::host;
use std::collections::BTreeSet;
use std::fmt;

mod library {
    extern "C" {
        pub fn verdict(table: *const u8, table_len: usize, answer: *mut u8, answer_len: usize) -> u32;

        pub fn replay(
            table: *const u8,
            table_len: usize,
            script: *const u8,
            script_len: usize,
            log: *mut u8,
            log_len: usize,
            answer: *mut u8,
            answer_len: usize,
        ) -> u32;
    }
}

#[derive(Clone, Copy, Debug, PartialEq, Eq, PartialOrd, Ord)]
pub enum Call {
    Verdict,
    Replay,
}

impl Call {
    /// Of what has to be met by both calls, by verdicts alone and by replays alone, returns what this call has to meet.
    pub fn of_both_and_its_own<T: Copy + Ord>(self, by_both: &[T], by_verdict: &[T], by_replay: &[T]) -> BTreeSet<T> {
        let its_own = match self {
            Call::Verdict => by_verdict,
            Call::Replay => by_replay,
        };
        by_both.iter().chain(its_own).copied().collect()
    }
}

/// A call and the bytes of its buffers beforehand. A verdict lends no script and no log.
#[derive(Clone)]
pub struct Case {
    pub call: Call,
    pub table: Vec<u8>,
    pub script: Vec<u8>,
    pub log: Vec<u8>,
    pub answer: Vec<u8>,
}

/// An outcome is everything that a caller can see afterwards.
#[derive(PartialEq, Eq)]
pub struct Outcome {
    pub status: u32,
    pub table: Vec<u8>,
    pub script: Vec<u8>,
    pub log: Vec<u8>,
    pub answer: Vec<u8>,
    pub fences_stand: bool,
}

impl Outcome {
    /// The first number of the answer: the place of a refusal, or the length of the log.
    pub fn first(&self) -> usize {
        u64::from_le_bytes(self.answer[..8].try_into().unwrap()) as usize
    }
}

impl Case {
    pub fn verdict(table: Vec<u8>, answer: Vec<u8>) -> Case {
        Case { call: Call::Verdict, table, script: vec![], log: vec![], answer }
    }

    pub fn replay(table: Vec<u8>, script: Vec<u8>, log: Vec<u8>, answer: Vec<u8>) -> Case {
        Case { call: Call::Replay, table, script, log, answer }
    }

    pub fn by_second_program(&self) -> Outcome {
        let Case { call, table, script, mut log, mut answer } = self.clone();
        let status = match call {
            Call::Verdict => host::verdict(&table, &mut answer),
            Call::Replay => host::replay(&table, &script, &mut log, &mut answer),
        };
        Outcome { status, table, script, log, answer, fences_stand: true }
    }

    pub fn by_library(&self, random: &mut Random) -> Outcome {
        let mut fenced = |content: &[u8]| Fenced::around(content, random);
        let mut table = fenced(&self.table);
        let mut script = fenced(&self.script);
        let mut log = fenced(&self.log);
        let mut answer = fenced(&self.answer);
        let before = [table.clone(), script.clone(), log.clone(), answer.clone()];
        // SAFETY: each pointer and length belong to a buffer of its own, or are null and 0.
        let status = unsafe {
            match self.call {
                Call::Verdict => library::verdict(table.pointer(), table.len(), answer.pointer(), answer.len()),
                Call::Replay => library::replay(
                    table.pointer(),
                    table.len(),
                    script.pointer(),
                    script.len(),
                    log.pointer(),
                    log.len(),
                    answer.pointer(),
                    answer.len(),
                ),
            }
        };
        Outcome {
            status,
            table: table.content(),
            script: script.content(),
            log: log.content(),
            answer: answer.content(),
            fences_stand: [table, script, log, answer].iter().zip(&before).all(|(now, then)| now.same_fence_as(then)),
        }
    }
}

pub fn hex(bytes: &[u8]) -> String {
    let pairs: Vec<String> = bytes.iter().map(|byte| format!("{byte:02x}")).collect();
    format!("[{}] {}", bytes.len(), pairs.join(" "))
}

impl fmt::Display for Case {
    fn fmt(&self, out: &mut fmt::Formatter) -> fmt::Result {
        writeln!(out, "{:?}, lent:", self.call)?;
        writeln!(out, "  table  {}", hex(&self.table))?;
        writeln!(out, "  script {}", hex(&self.script))?;
        writeln!(out, "  log    {}", hex(&self.log))?;
        writeln!(out, "  answer {}", hex(&self.answer))
    }
}

impl fmt::Display for Outcome {
    fn fmt(&self, out: &mut fmt::Formatter) -> fmt::Result {
        writeln!(out, "  status {}", self.status)?;
        writeln!(out, "  table  {}", hex(&self.table))?;
        writeln!(out, "  script {}", hex(&self.script))?;
        writeln!(out, "  log    {}", hex(&self.log))?;
        writeln!(out, "  answer {}", hex(&self.answer))?;
        writeln!(out, "  bytes around the buffers {}", if self.fences_stand { "as before" } else { "CHANGED" })
    }
}
