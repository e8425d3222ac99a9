//! The plain programs: the two calls, and a run, as one would write them in Rust without a proof in mind. They keep
//! every rule and every refusal, so that they do the same work. They take no short cut that the rules don't name.

mod events;
mod jobs;
mod numbers;
mod replay;
mod run;
mod table;
mod verdict;

pub use jobs::PLACES;
pub use run::{live, trace};
pub use table::{ROWS, SERVERS, X};

/// A refusal has its number and its place.
pub struct Refused(pub u32, pub usize);

pub fn verdict(table: &[u8], answer: &mut [u8]) -> u32 {
    if answer.len() != 16 {
        return 13;
    }
    match verdict::judge(table) {
        Ok(None) => say(answer, 20, 0, 0),
        Ok(Some((length, demand))) => say(answer, 21, length, demand),
        Err(Refused(number, place)) => say(answer, number, place as u64, 0),
    }
}

/// Says whether the first lengths of a table fit, so many of them.
pub fn fits_to(table: &[u8], last: u64) -> bool {
    verdict::fits_to(table, last).is_ok_and(|fits| fits)
}

pub fn replay(table: &[u8], script: &[u8], log: &mut [u8], answer: &mut [u8]) -> u32 {
    if answer.len() != 16 {
        return 13;
    }
    match replay::replay(table, script, log) {
        Ok((length, 0)) => say(answer, 22, length as u64, 0),
        Ok((length, late)) => say(answer, 23, length as u64, late),
        Err(Refused(number, place)) => {
            log.fill(0);
            say(answer, number, place as u64, 0)
        }
    }
}

/// Replays by events. The log is written into a vector, and it may be so many bytes long.
pub fn replay_by_events(table: &[u8], script: &[u8], log: &mut Vec<u8>, room: usize, answer: &mut [u8]) -> u32 {
    match events::replay(table, script, log, room) {
        Ok(0) => say(answer, 22, log.len() as u64, 0),
        Ok(late) => say(answer, 23, log.len() as u64, late),
        Err(Refused(number, place)) => {
            log.clear();
            log.resize(room, 0);
            say(answer, number, place as u64, 0)
        }
    }
}

fn say(answer: &mut [u8], status: u32, first: u64, second: u64) -> u32 {
    answer[..8].copy_from_slice(&first.to_le_bytes());
    answer[8..].copy_from_slice(&second.to_le_bytes());
    status
}
