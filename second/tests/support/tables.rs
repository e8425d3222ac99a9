//! Tables: ordinary ones, ones on the edge of feasible, and ones at the limits.

use super::random::Random;
use super::servers::{self, Server};
use super::timers::{self, Timer};
use super::{damage, hopeless};
use second::numbers;
use second::table::{self, MOST_C, MOST_D, MOST_ODD_COST, MOST_P, MOST_ROWS};
use second::verdict::{verdict, Verdict};

/// A row is x, y, d and c.
pub type Row = [u64; 4];

/// This timer takes no tick, and leaves the period to the rows.
pub const NO_TIMER: Timer = [0, 1];

/// A table to spell, whether its values are in range or not.
#[derive(Clone, Debug)]
pub struct Table {
    pub timer: Timer,
    pub rows: Vec<Row>,
    pub servers: Vec<Server>,
}

impl Table {
    pub fn without_timer(rows: Vec<Row>) -> Table {
        Table { timer: NO_TIMER, rows, servers: vec![] }
    }

    pub fn spell(&self) -> Vec<u8> {
        spell_all(self.timer, &self.rows, &self.servers)
    }

    pub fn numbers(&self) -> Vec<u64> {
        numbers_of(self.timer, &self.rows, &self.servers)
    }

    /// Returns how many row numbers are in use, those of servers too.
    pub fn row_numbers(&self) -> u64 {
        (self.rows.len() + self.servers.len()) as u64
    }

    /// Returns the most that a job of a row number may cost, or 1 where it is not in use.
    pub fn most_cost(&self, number: u64) -> u64 {
        match self.rows.get(number as usize) {
            Some(row) => row[3].clamp(1, MOST_C),
            None if number < self.row_numbers() => MOST_ODD_COST,
            None => 1,
        }
    }
}

/// Spells a table without a timer and without servers.
pub fn spell(rows: &[Row]) -> Vec<u8> {
    spell_with(NO_TIMER, rows)
}

/// Spells a table without servers.
pub fn spell_with(timer: Timer, rows: &[Row]) -> Vec<u8> {
    spell_all(timer, rows, &[])
}

pub fn spell_all(timer: Timer, rows: &[Row], servers: &[Server]) -> Vec<u8> {
    spell_numbers(&numbers_of(timer, rows, servers))
}

pub fn spell_numbers(numbers: &[u64]) -> Vec<u8> {
    numbers.iter().flat_map(|&number| numbers::spell(number).unwrap()).collect()
}

fn numbers_of(timer: Timer, rows: &[Row], servers: &[Server]) -> Vec<u64> {
    let with_rows = timer.into_iter().chain([rows.len() as u64]).chain(rows.iter().flatten().copied());
    with_rows.chain([servers.len() as u64]).chain(servers.iter().flatten().copied()).collect()
}

/// Returns the numbers that can be read from the start on, each with the place where it starts.
pub fn read_numbers(bytes: &[u8]) -> Vec<(usize, u64)> {
    let mut list = vec![];
    let mut place = 0;
    while let Ok((number, after)) = numbers::read(bytes, place) {
        list.push((place, number));
        place = after;
    }
    list
}

/// Returns the row count of a table's bytes, where it can be read: it is the third number.
pub fn row_count(bytes: &[u8]) -> Option<u64> {
    read_numbers(bytes).get(2).map(|&(_, count)| count)
}

/// Returns the server count of a table's bytes, where it can be read: it stands after the last row.
pub fn server_count(bytes: &[u8]) -> Option<u64> {
    let rows = usize::try_from(row_count(bytes)?).ok().filter(|&rows| rows <= bytes.len())?;
    read_numbers(bytes).get(3 + 4 * rows).map(|&(_, count)| count)
}

/// Returns how many lengths a program looks at that goes through them from 1 up. Where the sum of x * c / y, of a / b and
/// of s / p is above 1, only the witness tells.
pub fn lengths_to_look_at(bytes: &[u8]) -> u64 {
    match table::read(bytes) {
        Err(_) => 0,
        Ok(table) => match verdict(&table) {
            Verdict::Feasible => last_of_first_period(&table),
            Verdict::Overloaded { length, .. } => length,
        },
    }
}

pub fn last_of_first_period(table: &table::Table) -> u64 {
    table.period + table.largest_d()
}

/// Makes rows of any of the kinds below, any timer, and any servers.
pub fn any(random: &mut Random) -> Table {
    let kinds = [small, balanced, balanced, balanced, many, late_witness, long_period, at_limits];
    let rows = random.pick(&kinds)(random);
    let rows = with_hope(rows, random);
    let timer = timers::any(&rows, random);
    Table { timer, servers: servers::any(&rows, random), rows }
}

/// Makes a table to replay on: it is accepted, and has room for many jobs. Half of these have a timer that takes ticks,
/// and about half have servers.
pub fn to_replay(random: &mut Random) -> Table {
    let table = timed_to_replay(random);
    if random.one_in(2) {
        return table;
    }
    let p = random.pick(&[1, 1, 1, 2, 4, table.timer[1]]);
    servers::fitting(Table { timer: [0, p], ..table })
}

/// One table to start a run on in so many has a timer that is refused, or nearly, and one in so many a period that p
/// makes long.
const BAD_TIMER: u64 = 40;

/// One in so many has servers that are refused, or nearly, and one in so many a period that b makes long.
const BAD_SERVERS: u64 = 40;

/// One in so many has a first row whose c is above its d, or about as high.
const HOPELESS: u64 = 40;

/// Makes a table to start a run on, and its bytes. Most are accepted, and some bytes are damaged.
pub fn to_start(random: &mut Random) -> (Table, Vec<u8>) {
    let mut table = to_replay(random);
    if random.one_in(HOPELESS) {
        table.rows.iter_mut().take(1).for_each(|row| hopeless::spoil(row, random));
    }
    match random.below(BAD_SERVERS) {
        0 => table = servers::any_bad(random).0,
        1 => table = servers::long_period(random),
        _ => {}
    }
    match random.below(BAD_TIMER) {
        0 => table.timer = timers::bad(random),
        1 => table = long_period_by_p(random),
        _ => {}
    }
    let mut bytes = table.spell();
    if random.one_in(20) {
        bytes = damage::mutate(&bytes, random);
    }
    (table, bytes)
}

/// Makes a table to replay on that has servers.
pub fn served_to_replay(random: &mut Random) -> Table {
    let mut table = to_replay(random);
    if table.servers.is_empty() {
        table.servers = servers::some(&table.rows, random);
    }
    servers::fitting(table)
}

/// Makes a table to replay on whose timer takes ticks, where the period of the rows allows for one.
pub fn timed_to_replay(random: &mut Random) -> Table {
    if random.one_in(6) {
        return filled(random);
    }
    let rows = random.pick(&[small, small, hasty, hasty, balanced, many, wide])(random);
    let rows = with_hope(rows, random);
    let timer = timers::to_replay(&rows, random);
    let servers = if random.one_in(2) { servers::some(&rows, random) } else { vec![] };
    servers::fitting(Table { timer, rows, servers })
}

/// Makes a table whose witness is long. A third of these would be feasible without their timer, and a third without
/// their servers.
pub fn to_search(random: &mut Random) -> Table {
    let mut table = match random.below(3) {
        0 => late_witness_by_the_timer(random),
        1 => servers::late_witness(random),
        _ => Table::without_timer(late_witness(random)),
    };
    table.rows = with_hope(table.rows, random);
    table
}

/// Makes a table whose timer takes ticks, or only makes the period longer.
pub fn timed(random: &mut Random) -> Table {
    random.pick(&[filled, filled, filled, timed_to_replay, late_witness_by_the_timer, long_period_by_p])(random)
}

/// Makes a table with servers, of which many take about the whole processor together with the rows and the timer.
pub fn served(random: &mut Random) -> Table {
    let kinds = [filled_with_servers, filled_with_servers, servers::alone, servers::late_witness, servers::long_period];
    let table = random.pick(&kinds)(random);
    Table { rows: with_hope(table.rows, random), ..table }
}

/// Makes a timer and rows that together take about the whole processor.
fn filled(random: &mut Random) -> Table {
    let period: u64 = random.pick(&[6, 12, 24, 60, 120, 210, 1_024]);
    let p = random.pick(&divisors(period)[1..]);
    let most_s = random.pick(&[1, p / 4, p / 2, p - 1]).max(1);
    let s = random.within(1, most_s);
    let rows = rows_that_take(period, period - s * (period / p), random);
    Table { timer: [s, p], rows: with_hope(rows, random), servers: vec![] }
}

/// Makes servers and rows that together take about the whole processor, or what a timer leaves of it.
fn filled_with_servers(random: &mut Random) -> Table {
    let period: u64 = random.pick(&[6, 12, 24, 60, 120, 210, 1_024]);
    let divisors = divisors(period);
    let p = random.pick(&divisors);
    let s = if random.one_in(2) { 0 } else { random.within(0, p.div_ceil(4)).min(p - 1) };
    let mut free = period - s * (period / p);
    let mut servers = vec![];
    for _ in 0..random.within(1, 8) {
        let b = random.pick(&divisors);
        let a = random.within(1, b.div_ceil(3));
        let taken = a * (period / b);
        if taken < free {
            free -= taken;
            servers.push([a, b]);
        }
    }
    let mut rows = rows_that_take(period, free, random);
    if random.one_in(4) {
        // The last server takes about all that is free, and no row is left.
        let a = (free + random.below(3)).saturating_sub(1).clamp(1, period);
        servers.truncate(7);
        servers.push([a, period]);
        rows.clear();
    }
    Table { timer: [s, p], rows, servers }
}

/// Makes a timer and rows that together ask for a little more than there is. The rows are due so late that the witness
/// is long.
fn late_witness_by_the_timer(random: &mut Random) -> Table {
    let y = random.within(2, 40);
    let d = random.pick(&[20, 100, 400, 2_000]) + random.below(50);
    let s = random.within(1, y - 1);
    let (timer, rows) = match random.below(3) {
        0 => ([s, y], vec![[1, y, d, y - s + 1]]),
        1 => ([s, y], vec![[1, y, d, y - s], [1, random.within(1, 40), d, 1]]),
        _ => ([1, random.within(2, 40)], vec![[1, y, d, y]]),
    };
    Table { timer, rows: with_hope(rows, random), servers: vec![] }
}

/// Makes periods near the limit by p: 1023 with 1025 is just accepted, and 1141 with 919 is just refused.
pub fn long_period_by_p(random: &mut Random) -> Table {
    let pairs = random.pick(&LONG_PERIODS);
    let [p, y] = random.pick(&[[pairs.0, pairs.1], [pairs.1, pairs.0]]);
    let s = random.pick(&[0, 0, 1, p / 3, p - 1]);
    let mut rows = vec![[1, y, due_near(y, random), random.within(1, y / 3)]];
    if random.one_in(3) {
        rows.push([1, random.pick(&[y, p, 1]), random.within(1, 2 * p), 1]);
    }
    Table { timer: [s, p.min(MOST_P)], rows: with_hope(rows, random), servers: vec![] }
}

/// Mends the rows that are hopeless by chance, where d and c are in range: c comes down to d, or d goes up to c. Hopeless
/// rows are made on purpose elsewhere, and would otherwise leave too few tables that are accepted.
fn with_hope(mut rows: Vec<Row>, random: &mut Random) -> Vec<Row> {
    for [_, _, d, c] in &mut rows {
        if *c > *d && (1..=MOST_D).contains(d) && (1..=MOST_C).contains(c) {
            if random.one_in(2) {
                *c = *d;
            } else {
                *d = *c;
            }
        }
    }
    rows
}

fn small(random: &mut Random) -> Vec<Row> {
    let count = if random.one_in(12) { 0 } else { random.within(1, 5) };
    (0..count).map(|_| [random.within(1, 3), random.within(1, 12), random.within(1, 24), random.within(1, 4)]).collect()
}

/// Makes rows that take about the whole processor: the last row fills it up, to a unit or so.
fn balanced(random: &mut Random) -> Vec<Row> {
    let period = random.pick(&[6, 12, 24, 60, 120, 210, 1_024]);
    rows_that_take(period, period, random)
}

pub fn divisors(period: u64) -> Vec<u64> {
    (1..=period).filter(|divisor| period.is_multiple_of(*divisor)).collect()
}

/// Makes rows that take about as many units of a period as are free in it.
fn rows_that_take(period: u64, mut free: u64, random: &mut Random) -> Vec<Row> {
    let divisors = divisors(period);
    let mut rows = vec![];
    for _ in 0..random.below(5) {
        let y = random.pick(&divisors);
        let x = random.within(1, 3);
        let c = random.within(1, y.div_ceil(2));
        let taken = x * c * (period / y);
        if taken < free {
            free -= taken;
            rows.push([x, y, due_near(y, random), c]);
        }
    }
    let c = (free + random.below(4)).saturating_sub(2).max(1);
    rows.push([1, period, due_near(period, random), c]);
    let last = rows.len() - 1;
    rows.swap(random.index(last + 1), last);
    rows
}

pub fn due_near(y: u64, random: &mut Random) -> u64 {
    match random.below(5) {
        0 => y,
        1 => (y + random.below(3)).saturating_sub(1).max(1),
        2 => random.within(1, y),
        3 => y + random.below(40),
        _ => y * random.within(1, 4),
    }
}

/// Makes a row count that is the limit of rows, one less or one more.
fn near_the_limit(random: &mut Random) -> u64 {
    MOST_ROWS - 1 + random.below(3)
}

fn many(random: &mut Random) -> Vec<Row> {
    let ys = random.pick(&[[4, 8, 16, 32], [60, 90, 120, 180], [100, 200, 250, 500], [512, 1_024, 2_048, 4_096]]);
    let count = if random.one_in(3) { near_the_limit(random) } else { random.within(5, 17) };
    (0..count)
        .map(|_| {
            let y = random.pick(&ys);
            [random.within(1, 2), y, due_near(y, random), random.within(1, (y / count.max(8)).clamp(1, 40))]
        })
        .collect()
}

/// Makes rows that ask for a little more than there is, but are due so late that the witness is long.
fn late_witness(random: &mut Random) -> Vec<Row> {
    let y = random.within(1, 40);
    let d = random.pick(&[20, 100, 400, 2_000]) + random.below(50);
    let mut rows = vec![[1, y, d, y]];
    match random.below(3) {
        0 => rows[0][3] += 1,
        1 => rows.push([1, y * random.within(1, 4), random.within(1, d), 1]),
        _ => rows.push([1, random.within(1, 40), d, 1]),
    }
    rows
}

/// Pairs of numbers whose least common multiple is near the longest period.
pub const LONG_PERIODS: [(u64, u64); 12] = [
    (1_023, 1_025),
    (1_141, 919),
    (4_095, 256),
    (4_096, 255),
    (4_096, 257),
    (4_093, 256),
    (4_093, 257),
    (4_093, 4_091),
    (729, 1_438),
    (729, 1_439),
    (2_048, 511),
    (625, 512),
];

/// Makes periods near the limit: 1023 with 1025 is just accepted, and 1141 with 919 is just refused.
fn long_period(random: &mut Random) -> Vec<Row> {
    let (one, other) = random.pick(&LONG_PERIODS);
    let row = |y, random: &mut Random| [random.within(1, 2), y, due_near(y, random), random.within(1, y / 3)];
    let mut rows = vec![row(one, random), row(other, random)];
    if random.one_in(3) {
        rows.insert(random.index(3), row(random.pick(&[1, 3, 16, 31, 64]).max(3), random));
    }
    rows
}

/// Makes rows with each value at one of its limits, and now and then past it.
fn at_limits(random: &mut Random) -> Vec<Row> {
    let count = if random.one_in(3) { near_the_limit(random) } else { random.pick(&[1, 1, 2, 3]) };
    (0..count)
        .map(|_| {
            let mut at = |most: u64| match random.below(60) {
                0 => 0,
                1 => most + 1,
                2 => random.pick(&[127, 128, 16_383, 16_384, 1 << 32, 1 << 41, numbers::LARGEST]),
                3..=15 => most,
                16..=25 => most - 1,
                26..=40 => random.within(1, most),
                _ => random.within(1, 4),
            };
            [at(table::MOST_X), at(table::MOST_Y), at(table::MOST_D), at(table::MOST_C)]
        })
        .collect()
}

/// Makes rows that are due sooner than they can all be served.
fn hasty(random: &mut Random) -> Vec<Row> {
    let count = random.within(1, 3);
    (0..count).map(|_| [random.within(2, 6), random.within(1, 3), random.within(1, 4), random.within(1, 4)]).collect()
}

/// Makes few rows with a large x, so that many jobs come before the spacing by y sets in.
fn wide(random: &mut Random) -> Vec<Row> {
    let count = random.within(1, 5);
    (0..count)
        .map(|_| {
            let d = random.pick(&[1, 2, 8, 100, 16_000, 16_384]);
            [random.pick(&[1, 2, 63, 64]), random.pick(&[1, 2, 100, 4_096]), d, random.pick(&[1, 2, 20, 4_096])]
        })
        .collect()
}
