//! One call of the chooser, made to the library and to the second program.

use super::fenced::Fenced;
use super::random::Random;
use second::chooser::choose;

/// All that this file knows of the library's side. It returns 1 with a record, whose bytes it puts at the start of
/// the buffer for the part, or the refusal. The answer's two numbers, eight bytes each, lowest byte first, are the
/// part's length and which script it is of, 1 or 2, or 0 and 0 when both have ended; of a refusal, place and which
/// script.
mod library {
    extern "C" {
        pub fn choose(
            first: *const u8,
            first_len: usize,
            second: *const u8,
            second_len: usize,
            first_time: u64,
            second_time: u64,
            part: *mut u8,
            part_len: usize,
            answer: *mut u8,
            answer_len: usize,
        ) -> u32;
    }
}

pub const A_RECORD: u32 = 1;

/// Number returned, the answer's two numbers, and the buffer for the part.
pub type Outcome = (u32, [u64; 2], Vec<u8>);

pub fn by_library(lent: &[Vec<u8>; 2], times: [u64; 2], buffer: &[u8], random: &mut Random) -> Outcome {
    let mut fenced = |content: &[u8]| Fenced::around(content, random);
    let [mut first, mut second, mut part, mut answer] =
        [fenced(&lent[0]), fenced(&lent[1]), fenced(buffer), fenced(&[0xee; 16])];
    let before = [first.clone(), second.clone(), part.clone(), answer.clone()];
    // SAFETY: each pointer and length is of a buffer of its own, or null and 0.
    let number = unsafe {
        library::choose(
            first.pointer(),
            first.len(),
            second.pointer(),
            second.len(),
            times[0],
            times[1],
            part.pointer(),
            part.len(),
            answer.pointer(),
            answer.len(),
        )
    };
    assert!(first.same_whole_as(&before[0]) && second.same_whole_as(&before[1]));
    assert!(part.same_fence_as(&before[2]) && answer.same_fence_as(&before[3]));
    let answer = answer.content();
    let said = [0, 8].map(|start| u64::from_le_bytes(answer[start..start + 8].try_into().unwrap()));
    (number, said, part.content())
}

pub fn by_second_program(lent: &[Vec<u8>; 2], times: [u64; 2], buffer: &[u8]) -> Outcome {
    let mut buffer = buffer.to_vec();
    match choose(&lent[0], &lent[1], times[0], times[1]) {
        Ok((which, part)) => {
            buffer[..part.len()].copy_from_slice(part);
            (A_RECORD, [part.len() as u64, which.map_or(0, |which| which as u64)], buffer)
        }
        Err((which, refusal)) => (refusal.reason.number(), [refusal.place as u64, which as u64], buffer),
    }
}
