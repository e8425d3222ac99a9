//! These are the proved program's two calls, as include/jyrmekko.h has them, and the probe library's calls on a run, which
//! are there for comparisons only: a list of calls by value, and single calls on a run that is lent.

use crate::plain::{PLACES, ROWS, SERVERS, X};

/// A run's size in bytes, by its fields. First comes the table: s and p of the timer, the rows and their count, the servers
/// and their count. Then come the clock, the pending jobs and their count, the next serial, for each row the kept due times
/// and their count, for each server its last due time, and last the number of jobs that were ended. Each number has eight
/// bytes.
pub const RUN_SIZE: usize =
    8 * (TABLE + 1 + (6 * PLACES + 1) + 1 + ROWS as usize * (X as usize + 1) + SERVERS as usize + 1);
const TABLE: usize = 2 + (4 * ROWS as usize + 1) + (2 * SERVERS as usize + 1);

/// This is memory for a run. The library does not say how large a run is, so there is room behind it, which has to stay as
/// it was: a run of another size is noticed.
#[repr(C, align(8))]
pub struct Run {
    run: [u8; RUN_SIZE],
    behind: [u8; RUN_SIZE],
}

/// A byte of this memory that was never written has this value. A start overwrites whatever stands there.
const UNTOUCHED: u8 = 0xA5;

#[repr(C)]
pub struct RowNumber(u64);

#[repr(C)]
pub struct Serial(u64);

/// The answer of a call on a run that is lent.
#[repr(C)]
pub struct FourWords([u64; 4]);

const WORD: usize = 8;
/// The first word of a release.
const RELEASE: u64 = 1;
/// The first word of an end. A call with any other first word is a tick.
const END: u64 = 3;

mod calls {
    use super::{FourWords, RowNumber, Run, Serial};

    extern "C" {
        pub fn verdict(table: *const u8, table_len: usize, answer: *mut u8, answer_len: usize) -> u32;
        pub fn replay(
            table: *const u8,
            table_len: usize,
            script: *const u8,
            script_len: usize,
            log: *mut u8,
            log_len: usize,
            answer: *mut u8,
            answer_len: usize,
        ) -> u32;
        pub fn trace(
            table: *const u8,
            table_len: usize,
            calls: *const u8,
            calls_len: usize,
            answers: *mut u8,
            answers_len: usize,
        ) -> u32;
        pub fn lent_start(table: *const u8, table_len: usize, run: *mut Run) -> FourWords;
        pub fn lent_release(run: *mut Run, row: RowNumber, cost: u64) -> FourWords;
        pub fn lent_tick(run: *mut Run) -> FourWords;
        pub fn lent_end(run: *mut Run, serial: Serial) -> FourWords;
        pub fn run_start(table: *const u8, table_len: usize, run: *mut Run, answer: *mut u8, answer_len: usize) -> u32;
        pub fn run_release(run: *mut Run, row: u64, cost: u64, answer: *mut u8, answer_len: usize) -> u32;
        pub fn run_tick(run: *mut Run, answer: *mut u8, answer_len: usize) -> u32;
        pub fn run_end(run: *mut Run, serial: u64, answer: *mut u8, answer_len: usize) -> u32;
    }
}

pub fn verdict(table: &[u8], answer: &mut [u8]) -> u32 {
    // The call reads and writes inside what it is lent, for any bytes.
    unsafe { calls::verdict(table.as_ptr(), table.len(), answer.as_mut_ptr(), answer.len()) }
}

pub fn replay(table: &[u8], script: &[u8], log: &mut [u8], answer: &mut [u8]) -> u32 {
    unsafe {
        calls::replay(
            table.as_ptr(),
            table.len(),
            script.as_ptr(),
            script.len(),
            log.as_mut_ptr(),
            log.len(),
            answer.as_mut_ptr(),
            answer.len(),
        )
    }
}

pub fn trace(table: &[u8], calls: &[u8], answers: &mut [u8]) -> u32 {
    unsafe {
        calls::trace(table.as_ptr(), table.len(), calls.as_ptr(), calls.len(), answers.as_mut_ptr(), answers.len())
    }
}

/// Plays the same calls as `trace`, on a run that is lent to one call after another, and answers in the same form.
pub fn lent(table: &[u8], calls: &[u8], answers: &mut [u8]) -> u32 {
    let mut run = Box::new(Run { run: [UNTOUCHED; RUN_SIZE], behind: [UNTOUCHED; RUN_SIZE] });
    let mut room = answers.chunks_exact_mut(4 * WORD);
    let Some(answer) = room.next() else {
        return 0;
    };
    // Each call writes inside the run that it is lent, whatever bytes stand there.
    put(answer, unsafe { calls::lent_start(table.as_ptr(), table.len(), &mut *run) });
    let mut shown = 1;
    for (call, answer) in calls.chunks_exact(3 * WORD).zip(room) {
        let word = |index| u64::from_le_bytes(call[index * WORD..(index + 1) * WORD].try_into().unwrap());
        let said = match word(0) {
            RELEASE => unsafe { calls::lent_release(&mut *run, RowNumber(word(1)), word(2)) },
            END => unsafe { calls::lent_end(&mut *run, Serial(word(1))) },
            _ => unsafe { calls::lent_tick(&mut *run) },
        };
        put(answer, said);
        shown += 1;
    }
    assert!(run.behind.iter().all(|&byte| byte == UNTOUCHED), "a run is larger than {RUN_SIZE} bytes");
    shown
}

/// Plays calls on a run in memory of our own, as a host does, and writes for each its status, the two numbers of its answer
/// buffer, and 0, in eight bytes each.
pub fn live(table: &[u8], calls: &[u8], answers: &mut [u8]) -> u32 {
    let mut run = Box::new(Run { run: [UNTOUCHED; RUN_SIZE], behind: [UNTOUCHED; RUN_SIZE] });
    let run = &mut *run;
    let mut room = answers.chunks_exact_mut(4 * WORD);
    let Some(said) = room.next() else {
        return 0;
    };
    let (status, answer) = split(said);
    let started = unsafe { calls::run_start(table.as_ptr(), table.len(), run, answer.as_mut_ptr(), answer.len()) };
    status.copy_from_slice(&u64::from(started).to_le_bytes());
    let mut shown = 1;
    for (call, said) in calls.chunks_exact(3 * WORD).zip(room) {
        let word = |index| u64::from_le_bytes(call[index * WORD..(index + 1) * WORD].try_into().unwrap());
        let (status, answer) = split(said);
        let (at, length) = (answer.as_mut_ptr(), answer.len());
        let number = match word(0) {
            RELEASE => unsafe { calls::run_release(run, word(1), word(2), at, length) },
            END => unsafe { calls::run_end(run, word(1), at, length) },
            _ => unsafe { calls::run_tick(run, at, length) },
        };
        status.copy_from_slice(&u64::from(number).to_le_bytes());
        shown += 1;
    }
    assert!(run.behind.iter().all(|&byte| byte == UNTOUCHED), "a run is larger than {RUN_SIZE} bytes");
    shown
}

/// Returns the places of the status and of the two numbers in four words, and sets the last word to 0.
fn split(said: &mut [u8]) -> (&mut [u8], &mut [u8]) {
    said[3 * WORD..].fill(0);
    let (status, rest) = said.split_at_mut(WORD);
    (status, &mut rest[..2 * WORD])
}

fn put(place: &mut [u8], answer: FourWords) {
    for (bytes, word) in place.chunks_exact_mut(WORD).zip(answer.0) {
        bytes.copy_from_slice(&word.to_le_bytes());
    }
}
