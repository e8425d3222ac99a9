//! Runs that no calls have made. They are sound, but they hold what no start and no release would leave.

use super::random::Random;
use second::memory::{self, BYTES};
use second::run::{Job, LAST_TICK, MOST_ENDED, MOST_PENDING};
use second::sound::{Held, Kept};
use second::table::{Row, Server, Timer};
use second::table::{MOST_B, MOST_C, MOST_D, MOST_ODD_COST, MOST_P, MOST_ROWS, MOST_SERVERS, MOST_X, MOST_Y};

/// Makes a sound run. The period may be too long, due times stand in any order, and any numbers stand where nothing is in
/// use.
pub fn sound(random: &mut Random) -> Held {
    let mut held = memory::read(&random.bytes(BYTES));
    let p = up_to(MOST_P, random);
    held.timer = Timer { s: random.pick(&[0, 0, 1, p / 3, p - 1]).min(p - 1), p };
    held.row_count = random.pick(&[0, 1, 2, 3, 10, MOST_ROWS - 1, MOST_ROWS]);
    held.server_count = random.pick(&[0, 1, 2, MOST_SERVERS - 1, MOST_SERVERS]);
    held.clock = time(0, random);
    for row in 0..held.row_count as usize {
        let d = up_to(MOST_D, random);
        let c = up_to(MOST_C.min(d), random);
        held.rows[row] = Row { x: up_to(MOST_X, random), y: up_to(MOST_Y, random), d, c };
        let Kept { dues, count } = &mut held.kept[row];
        let x = held.rows[row].x;
        *count = random.pick(&[0, x / 2, x - 1, x, x]);
        dues[..*count as usize].iter_mut().for_each(|due| *due = time(held.clock, random));
    }
    for server in 0..held.server_count as usize {
        let b = up_to(MOST_B, random);
        held.servers[server] = Server { a: up_to(b, random), b };
        held.last[server] = time(held.clock, random);
    }
    let numbers_in_use = held.row_count + held.server_count;
    held.pending_count = match numbers_in_use {
        0 => 0,
        _ => random.pick(&[0, 1, 2, 3, 10, 40, MOST_PENDING as u64 - 1, MOST_PENDING as u64]),
    };
    held.ended = random.pick(&[0, 1, 5, 300, 1 << 32, MOST_ENDED - 1, MOST_ENDED]);
    let most = held.clock + held.pending_count + held.ended;
    let below_most = most - random.below(most + 1);
    held.next_serial = random.pick(&[held.pending_count, most, below_most]).max(held.pending_count);
    let first = random.within(0, held.next_serial - held.pending_count);
    let mut serials: Vec<u64> = (first..first + held.pending_count).collect();
    if random.one_in(2) {
        (1..serials.len()).for_each(|last| serials.swap(random.index(last + 1), last));
    }
    // Many jobs are due at few times, so that serials decide between them.
    let dues: Vec<u64> = (0..random.within(1, 9)).map(|_| time(held.clock, random)).collect();
    for (place, serial) in serials.into_iter().enumerate() {
        let row = random.below(numbers_in_use);
        let cost = up_to(held.rows().get(row as usize).map_or(MOST_ODD_COST, |row| row.c), random);
        let left = random.pick(&[1, 1, cost.div_ceil(2), cost]);
        let release = held.clock - random.below(held.clock + 1);
        held.pending[place] = Job { serial, row, release, due: random.pick(&dues), cost, left };
    }
    held
}

fn up_to(most: u64, random: &mut Random) -> u64 {
    let any = random.within(1, most);
    random.pick(&[1, 2, 3, 4, any, most]).min(most)
}

/// Makes a time about the clock, at either end, or anywhere.
fn time(clock: u64, random: &mut Random) -> u64 {
    match random.below(8) {
        0 => 0,
        1 => LAST_TICK,
        2 => random.below(LAST_TICK),
        3 => LAST_TICK - random.below(40),
        4 => random.below(40),
        5 => clock.saturating_sub(random.below(10)),
        _ => (clock + random.below(12)).min(LAST_TICK),
    }
}
