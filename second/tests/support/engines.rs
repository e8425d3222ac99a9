//! Tables on which an engine that leaves lengths out could go wrong, and the engine that looks at every length.

use super::case::{Case, Outcome};
use super::fenced::Fenced;
use super::random::Random;
use super::servers::Server;
use super::tables::{self, due_near, Row, Table, NO_TIMER};
use super::timers::Timer;
use second::table::{self, LONGEST_PERIOD, MOST_C, MOST_D, MOST_P, MOST_ROWS, MOST_SERVERS, MOST_Y};
use second::verdict::{verdict, Verdict};

/// All that this file knows of the library's side: the verdict, by the engine that looks at every length in turn.
mod library {
    extern "C" {
        pub fn verdict_every_length(table: *const u8, table_len: usize, answer: *mut u8, answer_len: usize) -> u32;
    }
}

pub fn by_every_length(case: &Case, random: &mut Random) -> Outcome {
    let mut table = Fenced::around(&case.table, random);
    let mut answer = Fenced::around(&case.answer, random);
    let before = [table.clone(), answer.clone()];
    // SAFETY: each pointer and length is of a buffer of its own, or null and 0.
    let status = unsafe { library::verdict_every_length(table.pointer(), table.len(), answer.pointer(), answer.len()) };
    Outcome {
        status,
        table: table.content(),
        script: case.script.clone(),
        log: case.log.clone(),
        answer: answer.content(),
        fences_stand: table.same_fence_as(&before[0]) && answer.same_fence_as(&before[1]),
    }
}

/// From this H on the periods are long.
pub const LONG: u64 = 8_192;

/// Most long periods are at most so long, and the longest are as long as a period can be.
const NOT_THE_LONGEST: u64 = 20_000;

/// Which verdicts the tables of a family can have.
#[derive(Clone, Copy, PartialEq, Eq)]
pub enum Can {
    Both,
    OnlyOverloaded,
}

pub struct Family {
    pub name: &'static str,
    /// Of 100 tables so many are of this family.
    pub share: u64,
    /// One table of the family in so many may have one of the longest periods, and the others have not.
    pub longest: u64,
    pub can: Can,
    /// Makes a table with a period that is at most so long.
    pub make: fn(u64, &mut Random) -> Table,
}

impl Family {
    pub fn table(&self, index: u64, random: &mut Random) -> Table {
        let longest = if index.is_multiple_of(self.longest) { LONGEST_PERIOD } else { NOT_THE_LONGEST };
        (self.make)(longest, random)
    }
}

pub const ALL: [Family; 11] = [
    Family { name: "small tables", share: 51, longest: 1, can: Can::Both, make: |_, random| small(random) },
    Family {
        name: "a sum of exactly 1",
        share: 6,
        longest: 100,
        can: Can::Both,
        make: |longest, random| due_any(filled(longest, |h, _| h, random), random),
    },
    Family {
        name: "a sum of 1 - 1 / H",
        share: 6,
        longest: 100,
        can: Can::Both,
        make: |longest, random| due_any(filled(longest, |h, _| h - 1, random), random),
    },
    Family {
        name: "a sum a little above 1",
        share: 9,
        longest: 40,
        can: Can::OnlyOverloaded,
        make: |longest, random| {
            let table = filled(longest, a_little_above, random);
            if random.one_in(8) {
                due_any(table, random)
            } else {
                due_late(table, random)
            }
        },
    },
    Family {
        name: "any sum",
        share: 5,
        longest: 100,
        can: Can::Both,
        make: |longest, random| due_any(filled(longest, |h, random| random.within(h / 2, 2 * h), random), random),
    },
    Family {
        name: "d = y",
        share: 5,
        longest: 100,
        can: Can::Both,
        make: |longest, random| due_at_y(filled(longest, about_1, random)),
    },
    Family {
        name: "d as small as fits",
        share: 5,
        longest: 100,
        can: Can::Both,
        make: |longest, random| tight(longest, random),
    },
    Family { name: "rows of c 1 with small y", share: 3, longest: 250, can: Can::Both, make: ones },
    Family { name: "servers alone", share: 3, longest: 250, can: Can::Both, make: servers_alone },
    Family { name: "timers that take much", share: 5, longest: 100, can: Can::Both, make: much_taken },
    Family { name: "many rows", share: 2, longest: 250, can: Can::Both, make: many_rows },
];

/// Two numbers g * u and g * v, with u and v coprime. Their least common multiple is H.
struct Period {
    u: u64,
    v: u64,
    ys: [u64; 2],
    h: u64,
    /// The divisors of H that a y, a p or a b can be.
    divisors: Vec<u64>,
}

impl Period {
    fn of(g: u64, u: u64, v: u64) -> Period {
        let h = g * u * v;
        let low = (1..).take_while(|low| low * low <= h).filter(|low| h.is_multiple_of(*low));
        let divisors = low.flat_map(|low| [low, h / low]).filter(|&divisor| divisor <= MOST_Y).collect();
        Period { u, v, ys: [g * u, g * v], h, divisors }
    }

    fn within(least: u64, most: u64, random: &mut Random) -> Period {
        loop {
            let [u, v] = [(); 2].map(|_| {
                let most = random.pick(&[8, 32, 128, 512, 1_100]);
                random.within(2, most)
            });
            let least_g = least.div_ceil(u * v);
            let most_g = (most / (u * v)).min(MOST_Y / u.max(v));
            if gcd(u, v) == 1 && least_g <= most_g {
                return Period::of(random.within(least_g, most_g), u, v);
            }
        }
    }

    /// Makes a long period. Those that may be the longest are so mostly, and some others are just long.
    fn long(longest: u64, random: &mut Random) -> Period {
        match random.below(8) {
            0 => Period::within(LONG, LONG + 200, random),
            1..=5 if longest == LONGEST_PERIOD => Period::within(longest / 3, longest, random),
            _ => Period::within(LONG, longest, random),
        }
    }

    /// Returns a cost in g * u and one in g * v ticks that take so many units of a period together. Where there are
    /// such costs at all, they are any of them.
    fn costs(&self, units: u64, random: &mut Random) -> Option<[u64; 2]> {
        let most = units / self.u;
        let start = random.within(most.min(self.v - 1), most);
        let of_v =
            (start.saturating_sub(self.v - 1)..=start).find(|cost| (units - cost * self.u).is_multiple_of(self.v))?;
        Some([(units - of_v * self.u) / self.v, of_v])
    }
}

fn gcd(one: u64, other: u64) -> u64 {
    if other == 0 {
        one
    } else {
        gcd(other, one % other)
    }
}

fn a_little_above(h: u64, random: &mut Random) -> u64 {
    let most = random.pick(&[1, 1, 3, 20, 1_000]);
    h + random.within(1, most)
}

fn about_1(h: u64, random: &mut Random) -> u64 {
    match random.below(4) {
        0 => h,
        1 => h - 1,
        2 => a_little_above(h, random),
        _ => random.within(h - h / 8, h + h / 8),
    }
}

/// Makes a table with a long period whose sum is as wanted, in units of a period. Its d are y, or c where that is more.
fn filled(longest: u64, sum: fn(u64, &mut Random) -> u64, random: &mut Random) -> Table {
    loop {
        let period = Period::long(longest, random);
        let sum = sum(period.h, random);
        let timer = match random.below(4) {
            0 => any_timer(&period, random),
            1 => [0, random.pick(&period.divisors).min(MOST_P)],
            _ => NO_TIMER,
        };
        let most_rows = random.pick(&[0, 1, 4]);
        let most_servers = random.pick(&[0, 0, 1, 3]);
        if let Some(table) = filled_up(&period, sum, timer, [most_rows, most_servers], random) {
            return table;
        }
    }
}

/// Makes a timer that takes any part of the processor, but mostly a small one.
fn any_timer(period: &Period, random: &mut Random) -> Timer {
    let p = random.pick(&period.divisors);
    let most = random.pick(&[1, 1 + p / 8, p]).min(p) - 1;
    [random.within(most.min(1), most), p]
}

/// Fills a table up to a sum, where it can be done: some rows and some servers take a part of what the timer leaves, and
/// the last two take the rest exactly.
fn filled_up(period: &Period, sum: u64, timer: Timer, most: [u64; 2], random: &mut Random) -> Option<Table> {
    let mut free = sum.checked_sub(timer[0] * (period.h / timer[1]))?;
    let mut rows = vec![];
    let mut servers = vec![];
    for _ in 0..random.within(0, most[0]) {
        let y = random.pick(&period.divisors);
        let [x, c] = [random.within(1, 3), random.within(1, 1 + y / 8)];
        let taken = x * c * (period.h / y);
        if taken <= free / 2 {
            free -= taken;
            rows.push([x, y, y, c]);
        }
    }
    for _ in 0..random.within(0, most[1]) {
        let b = random.pick(&period.divisors);
        let a = random.within(1, 1 + b / 8).min(b);
        let taken = a * (period.h / b);
        if taken <= free / 2 {
            free -= taken;
            servers.push([a, b]);
        }
    }
    let costs = period.costs(free, random)?;
    for (y, cost) in period.ys.into_iter().zip(costs) {
        if cost <= y && random.below(4) < most[1] {
            servers.push([cost, y]);
        } else {
            let x = random.pick(&[1, 1, 2, 3]);
            let x = if cost.is_multiple_of(x) { x } else { 1 };
            rows.insert(random.index(rows.len() + 1), [x, y, y, cost / x]);
        }
    }
    accepted(Table { timer, rows, servers })
}

/// Lets a table through that is accepted once each d is at least c.
fn accepted(mut table: Table) -> Option<Table> {
    table.rows.iter_mut().for_each(|row| row[2] = row[2].max(row[3]));
    table::read(&table.spell()).is_ok().then_some(table)
}

fn with_due(table: Table, mut due: impl FnMut(&Row) -> u64) -> Table {
    let with_due = |row: &Row| [row[0], row[1], due(row).clamp(row[3], MOST_D), row[3]];
    Table { rows: table.rows.iter().map(with_due).collect(), ..table }
}

/// Returns by how many times 1 / H a table's sum is above 1.
fn above_1(table: &Table) -> u64 {
    let read = table::read(&table.spell()).expect("good tables are made");
    sum(&read).saturating_sub(read.period)
}

/// Returns a table's sum of x * c / y, of a / b and of s / p, in units of a period.
pub fn sum(table: &table::Table) -> u64 {
    let of_rows: u64 = table.rows.iter().map(|row| row.x * row.c * (table.period / row.y)).sum();
    let of_servers: u64 = table.servers.iter().map(|server| server.a * (table.period / server.b)).sum();
    of_rows + of_servers + table.timer.s * (table.period / table.timer.p)
}

fn due_at_y(table: Table) -> Table {
    with_due(table, |row| row[1])
}

fn due_any(table: Table, random: &mut Random) -> Table {
    match random.below(5) {
        0 => due_at_y(table),
        1 => with_due(table, |row| due_near(row[1], random)),
        2 => with_due(table, |row| row[1] + random.below(40)),
        3 => with_due(table, |row| row[1] - random.below(1 + row[1] / 16)),
        _ => due_late(table, random),
    }
}

/// Makes the rows due so late that the slack of one period, or of many, is used up only by those after it.
fn due_late(table: Table, random: &mut Random) -> Table {
    let most = random.pick(&[10, 100, 1_000, MOST_D]);
    match random.below(4) {
        0 => {
            // This is about the slack that is used up in so few periods.
            let periods = random.pick(&[1, 1, 2, 5]);
            let later = (periods * above_1(&table) + 1).saturating_sub(random.below(4));
            with_due(table, |row| row[1] + later)
        }
        1 => {
            let d = random.within(1, MOST_D);
            with_due(table, |row| row[1].max(d))
        }
        2 => {
            let later = random.within(1, most);
            with_due(table, |row| row[1] + later)
        }
        _ => with_due(table, |row| row[1] + random.within(1, most)),
    }
}

/// Makes a table in which each d is as small as still fits, and in half of them one is less by one: that has a witness
/// wherever the slack was used up, which may be late in the period.
fn tight(longest: u64, random: &mut Random) -> Table {
    let mut table = loop {
        let period = Period::long(longest, random);
        let most_below = random.pick(&[0, 1, 100, period.h / 4]);
        let sum = period.h - random.within(most_below.min(1), most_below);
        let timer = if random.one_in(3) { any_timer(&period, random) } else { NO_TIMER };
        let most_rows = random.pick(&[0, 1, 3]);
        let filled = filled_up(&period, sum, timer, [most_rows, 0], random);
        let later = random.pick(&[0, 0, 1, 4]);
        match filled.map(|table| with_due(table, |row| row[1] + later * timer[1])) {
            Some(table) if is_feasible(&table) => break table,
            _ => {}
        }
    };
    let rows = table.rows.len();
    let first = random.index(rows);
    for row in (0..rows).map(|row| (first + row) % rows) {
        let [mut low, mut high] = [table.rows[row][3], table.rows[row][2]];
        while low < high {
            table.rows[row][2] = (low + high) / 2;
            if is_feasible(&table) {
                high = table.rows[row][2];
            } else {
                low = table.rows[row][2] + 1;
            }
        }
        table.rows[row][2] = low;
    }
    let [_, _, d, c] = &mut table.rows[(first + rows - 1) % rows];
    if *d > *c && random.one_in(2) {
        *d -= 1;
    }
    table
}

fn is_feasible(table: &Table) -> bool {
    verdict(&table::read(&table.spell()).expect("tables are tightened that are accepted")) == Verdict::Feasible
}

/// Makes rows that cost 1 and come so often that there are many steps: together they take about the whole processor.
fn ones(longest: u64, random: &mut Random) -> Table {
    loop {
        let most_y = random.pick(&[16, 32, 64]);
        let mut h = 1;
        let mut rows: Vec<Row> = vec![];
        let mut taken: f64 = 0.0;
        for _ in 0..40 {
            let y = random.within(2, most_y);
            let longer = h / gcd(h, y) * y;
            if longer <= longest && taken + 1.0 / y as f64 <= 1.0 {
                taken += 1.0 / y as f64;
                h = longer;
                rows.push([1, y, y, 1]);
            }
        }
        if h >= LONG && rows.len() <= MOST_ROWS as usize {
            // One more of these rows is often too much.
            if random.one_in(2) {
                rows.push(random.pick(&rows));
            }
            let table = Table { timer: NO_TIMER, rows, servers: vec![] };
            return match random.below(4) {
                0 => due_at_y(table),
                1 => with_due(table, |row| row[1] + random.below(3)),
                2 => with_due(table, |row| row[1] + random.below(1_000)),
                _ => with_due(table, |row| due_near(row[1], random)),
            };
        }
    }
}

fn servers_alone(longest: u64, random: &mut Random) -> Table {
    loop {
        let period = Period::long(longest, random);
        let sum = about_1(period.h, random);
        let timer = if random.one_in(4) { any_timer(&period, random) } else { NO_TIMER };
        // With four and more servers the last two are never rows.
        let most = random.within(4, MOST_SERVERS - 2);
        match filled_up(&period, sum, timer, [0, most], random) {
            Some(table) if table.rows.is_empty() => return table,
            _ => {}
        }
    }
}

/// Makes a timer that takes most ticks, up to all but one of 4,096, and rows and servers for about what is left.
fn much_taken(longest: u64, random: &mut Random) -> Table {
    loop {
        let period = if random.one_in(3) {
            // A p of 4,096, and a y that makes H three, five or seven times as long.
            let u = random.pick(&[4, 8, 16, 64]);
            Period::of(MOST_P / u, u, random.pick(&[3, 5, 7].map(|v| if v < u { v } else { 3 })))
        } else {
            Period::long(longest, random)
        };
        let p = period.ys[0];
        let left = random.pick(&[1, 2, 10, p / 8, p / 2]).clamp(1, p - 1);
        let timer = [p - left, p];
        let free = left * (period.h / p);
        let sum = match random.below(3) {
            0 => period.h - free + random.within(1, free),
            _ => about_1(period.h, random),
        };
        let most_servers = random.pick(&[0, 0, 1, 2]);
        let filled = filled_up(&period, sum, timer, [1, most_servers], random).or_else(|| {
            let y = random.pick(&period.divisors[period.divisors.len() / 2..]);
            let c = (free / (period.h / y) + random.below(2)).clamp(1, MOST_C);
            let servers: Vec<Server> = if random.one_in(4) { vec![[1, period.ys[1]]] } else { vec![] };
            accepted(Table { timer, rows: vec![[1, y, y, c]], servers })
        });
        if let Some(table) = filled {
            return match random.below(4) {
                0 => due_at_y(table),
                1 => with_due(table, |row| row[1].max(p) + random.below(p)),
                _ => due_late(table, random),
            };
        }
    }
}

/// Makes up to as many rows as the limit, that take about the whole processor.
fn many_rows(longest: u64, random: &mut Random) -> Table {
    loop {
        let period = Period::long(longest, random);
        let sum = about_1(period.h, random);
        let count = if random.one_in(4) { MOST_ROWS } else { random.within(17, MOST_ROWS) };
        // Rows that come often make many steps, which takes its time with so many rows.
        let least_y = random.pick(&[5, 100, 100, 100, 100, 100]);
        let ys: Vec<u64> = period.divisors.iter().copied().filter(|&y| y >= least_y).collect();
        let mut free = sum;
        let mut rows: Vec<Row> = vec![];
        for _ in 0..count - 2 {
            let y = random.pick(&ys);
            let c = random.within(1, 1 + y / count);
            let taken = c * (period.h / y);
            if taken <= free / 2 {
                free -= taken;
                rows.push([1, y, y, c]);
            }
        }
        let Some(costs) = period.costs(free, random) else { continue };
        rows.extend(period.ys.into_iter().zip(costs).map(|(y, cost)| [1, y, y, cost]));
        if let Some(table) = accepted(Table { timer: NO_TIMER, rows, servers: vec![] }) {
            return due_any(table, random);
        }
    }
}

/// Makes a small table: of the kinds that the other comparisons have, or with a short period that is filled up.
fn small(random: &mut Random) -> Table {
    loop {
        let table = match random.below(8) {
            0 => tables::any(random),
            1 => tables::timed(random),
            2 => tables::served(random),
            3 => tables::to_search(random),
            _ => {
                let most = random.pick(&[30, 30, 200, 200, 1_000, 1_000, 1_000, LONG - 1]);
                let period = Period::within(6, most, random);
                let sum = about_1(period.h, random);
                let timer = if random.one_in(3) { any_timer(&period, random) } else { NO_TIMER };
                let [rows, servers] = [(); 2].map(|_| random.pick(&[0, 1, 3]));
                let Some(table) = filled_up(&period, sum, timer, [rows, servers], random) else { continue };
                due_any(table, random)
            }
        };
        if table::read(&table.spell()).is_ok_and(|table| table.period < LONG) {
            return table;
        }
    }
}
