//! Releases for random calls, and a trace of single calls, made to the library.

use super::fenced::Fenced;
use super::random::Random;
use super::tables::Table;
use second::table::{MOST_ROWS, MOST_SERVERS};
use second::trace::{Answer, Call};

/// All that this file knows of the library's side. Numbers take eight bytes each, lowest byte first. A call is three
/// of them: 1, row, cost for a release; 2, 0, 0 for a tick; 3, serial, 0 for an end. The answers are of four each,
/// as the second program gives them, and their count is returned.
mod library {
    extern "C" {
        pub fn trace(
            table: *const u8,
            table_len: usize,
            calls: *const u8,
            calls_len: usize,
            answers: *mut u8,
            answers_len: usize,
        ) -> u32;
    }
}

fn numbers_of(call: &Call) -> [u64; 3] {
    match *call {
        Call::Release { row, cost } => [1, row, cost],
        Call::Tick => [2, 0, 0],
        Call::End { serial } => [3, serial, 0],
    }
}

pub fn bytes_of(numbers: impl Iterator<Item = u64>) -> Vec<u8> {
    numbers.flat_map(u64::to_le_bytes).collect()
}

pub fn by_library(table: &[u8], calls: &[Call], random: &mut Random) -> (u32, Vec<u8>) {
    let mut table = Fenced::around(table, random);
    let mut spelled = Fenced::around(&bytes_of(calls.iter().flat_map(numbers_of)), random);
    let mut answers = Fenced::around(&random.bytes((calls.len() + 1) * size_of::<Answer>()), random);
    let before = [table.clone(), spelled.clone(), answers.clone()];
    // SAFETY: each pointer and length is of a buffer of its own, or null and 0.
    let count = unsafe {
        library::trace(table.pointer(), table.len(), spelled.pointer(), spelled.len(), answers.pointer(), answers.len())
    };
    assert!(table.same_whole_as(&before[0]) && spelled.same_whole_as(&before[1]));
    assert!(answers.same_fence_as(&before[2]));
    (count, answers.content())
}

/// Makes a release that is mostly accepted.
pub fn good_release(table: &Table, random: &mut Random) -> Call {
    let row = random.below(table.row_numbers().max(1));
    Call::Release { row, cost: random.within(1, table.most_cost(row).min(9)) }
}

/// Makes a release with a good row number and a good cost, or now and then a bad one.
pub fn random_release(table: &Table, random: &mut Random) -> Call {
    let count = table.row_numbers();
    let row = if random.one_in(30) {
        random.pick(&[count, table.rows.len() as u64, MOST_ROWS, MOST_ROWS + MOST_SERVERS, 1 << 32, u64::MAX])
    } else {
        random.below(count.max(1))
    };
    let most = table.most_cost(row);
    let cost = if random.one_in(20) {
        random.pick(&[0, most, most + 1, 1 << 32, u64::MAX])
    } else {
        random.within(1, most.min(9))
    };
    Call::Release { row, cost }
}
