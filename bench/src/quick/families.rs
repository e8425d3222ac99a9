//! The families of tables whose verdicts are measured beside the plain program. Each table of a family is random, from a
//! fixed seed. In the names h is the period, and a family is tight where each d is as small as still fits.

use super::tables::{pick, random_rows, row_of, rows_of_cost_1, rows_of_cost_to, Period, Table, MOST, MOST_D};
use crate::cases::{Random, Timer, NO_TIMER};
use std::ops::RangeInclusive;

/// The library has to be at least this many times as fast as the plain program: on tables with a large period and on late
/// witnesses. The request asks for ten times on both. On small tables it may be a little slower.
const LARGE: f64 = 25.0;
const LATE: f64 = 1_000.0;
const SMALL: f64 = 0.9;

pub struct Family {
    pub name: String,
    pub target: f64,
    /// So many measurements are made.
    pub samples: usize,
    /// So many tables are judged in one measurement.
    pub each: usize,
    /// This makes a table, or none where the random numbers don't lead to one of this family.
    pub make: Box<dyn Fn(&mut Random) -> Option<Table>>,
}

fn family(
    name: impl ToString,
    target: f64,
    (samples, each): (usize, usize),
    make: impl Fn(&mut Random) -> Option<Table> + 'static,
) -> Family {
    Family { name: name.to_string(), target, samples, each, make: Box::new(make) }
}

fn large(name: &str, samples: usize, make: impl Fn(&mut Random) -> Option<Table> + 'static) -> Family {
    family(name, LARGE, (samples, 1), make)
}

pub fn all() -> Vec<Family> {
    let mut families = vec![
        large("16 rows, sum .5 to .97, d y/2 to y", 20, |random| loose(random, 16)),
        large("64 rows, sum .5 to .97, d y/2 to y", 10, |random| loose(random, 64)),
        large("16 rows, sum 1, d = y", 20, |random| full(random, 16, 0)),
        large("64 rows, sum 1, d = y", 10, |random| full(random, 64, 0)),
        large("16 rows, sum 1 - 1/h, d = y", 20, |random| full(random, 16, 1)),
        large("64 rows, sum 1 - 1/h, d = y", 10, |random| full(random, 64, 1)),
        large("16 rows, sum 1 or 1 - 1/h, tight", 20, |random| full_or_nearly(random, 16)?.tight()),
        large("64 rows, sum 1 or 1 - 1/h, tight", 10, |random| full_or_nearly(random, 64)?.tight()),
        large("dense rows, y to 8, c 1, sum 1 or 1 - 1/h, d = y", 40, dense),
        large("dense rows, y to 8, c 1, sum 1 or 1 - 1/h, tight", 40, |random| dense(random)?.tight()),
        large("2 servers, sum 1 - 1/h", 40, |random| servers(random, 2)),
        large("8 servers, sum 1 - 1/h", 40, |random| servers(random, 8)),
        large("timer 1022/1023 and a row of y 1024", 1, |_| Some(row_beside(1_023))),
        large("timer (p - 1)/p and a row of y p + 1", 40, |random| Some(row_beside(1_023 - random.below(300)))),
        large("timer about 511/1023 and 2 rows, 1 - 1/h", 40, two_beside),
        large("timer about 511/1023 and 2 rows, 1 - 1/h, tight", 40, |random| two_beside(random)?.tight()),
        large("timer, 6 rows and a server, 1 - 1/h, tight", 40, |random| six_beside(random)?.tight()),
        large("c 1 and 2 servers, 1 to 1 - 5/h, tight: 8 rows", 40, |random| cost_1(random, 8, 8, 8..=64)),
        large("c 1 and 2 servers, 1 to 1 - 5/h, tight: 16 rows, y to 40", 30, |random| cost_1(random, 16, 16, 16..=40)),
        large("c 1 and 2 servers, 1 to 1 - 5/h, tight: to 62 rows, y to 128", 12, |random| {
            cost_1(random, 24, 62, 16..=128)
        }),
        large("c to 4 and 2 servers, 1 to 1 - 5/h, tight: 16 rows, y to 200", 30, cost_to_4),
        large("3 rows and 2 servers, h = 1019 * 1021, 1 to 1 - 5/h, tight", 40, |random| few_divisors(random)?.tight()),
        large("witness from d + h/64 to h: 16 rows, sum 1 or 1 - 1/h", 20, |random| {
            one_tick_less(random, |random| full_or_nearly(random, 16)?.tight())
        }),
        large("witness from d + h/64 to h: c 1 and 2 servers, 8 rows", 20, |random| {
            one_tick_less(random, |random| cost_1(random, 8, 8, 8..=64))
        }),
        large("witness from d + h/64 to h: 3 rows and 2 servers, h = 1019 * 1021", 20, |random| {
            one_tick_less(random, |random| few_divisors(random)?.tight())
        }),
    ];
    for (goal, said) in [(1_000_000, "10^6"), (100_000_000, "10^8"), (16_000_000_000, "1.6 * 10^10")] {
        for rows in [1, 2, 16, 64] {
            let terms = match rows {
                1 if goal == 1_000_000 => "1 row".to_string(),
                1 => "1 row and a timer".to_string(),
                _ => format!("{rows} rows"),
            };
            let name = format!("late witness, about {said}: {terms}");
            families.push(family(name, LATE, (6, 1), move |random| late(random, goal, rows)));
        }
    }
    families.push(family("late witness, sum 1 + 10/h to 1 + 1000/h: 16 rows", LATE, (12, 1), late_and_steep));
    for (most, longest) in [(8, 64), (62, 128)] {
        let name = format!("late witness, sum 1 + 1/h: to {most} rows of c 1 and 2 servers, small d");
        families.push(family(name, LATE, (12, 1), move |random| late_and_dense(random, most, longest)));
    }
    let v8 = |_: &mut Random| Some(Table::new(NO_TIMER, vec![[1, 2, 10, 3]], vec![]));
    families.extend([
        family("V8", SMALL, (3, 500), v8),
        family("small, h + d to 64", SMALL, (20, 200), |random| small(random, false, 1..=64)),
        family("small, h + d 65 to 2,000", SMALL, (20, 20), |random| small(random, false, 65..=2_000)),
        family("small, witness to 64", SMALL, (20, 200), |random| small(random, true, 1..=64)),
        family("small, witness 65 to 2,000", SMALL, (20, 20), |random| small(random, true, 65..=2_000)),
    ]);
    families
}

/// Rows with room to spare.
fn loose(random: &mut Random, count: u64) -> Option<Table> {
    let period = Period::large(random);
    let thousandths = 500 + random.below(471);
    let mut rows = random_rows(random, &period.divisors(2 * count, MOST), count, thousandths)?;
    for [_, y, d, c] in &mut rows {
        *d = (*y - random.below(*y / 2 + 1)).max(*c);
    }
    let table = Table::new(NO_TIMER, rows, vec![]);
    (table.period() == period.h && table.growth(period.h) * 100 <= 97 * period.h && table.fits()).then_some(table)
}

/// Rows alone whose sum is 1 less `short` in parts of h.
fn full(random: &mut Random, count: u64, short: u64) -> Option<Table> {
    let period = Period::large(random);
    let thousandths = 300 + random.below(600);
    let rows = random_rows(random, &period.divisors(2 * count, MOST), count - 2, thousandths)?;
    let mut table = Table::new(NO_TIMER, rows, vec![]);
    let rest = period.rest(random, &table, period.h - short)?;
    table.rows.extend(rest.map(row_of));
    Some(table)
}

fn full_or_nearly(random: &mut Random, count: u64) -> Option<Table> {
    let short = random.below(2);
    full(random, count, short)
}

/// Servers fill what these rows leave.
fn dense(random: &mut Random) -> Option<Table> {
    let period = Period::large(random);
    let count = 2 + random.below(7);
    let rows = rows_of_cost_1(random, &period.divisors(1, 8), count, 970)?;
    let short = random.below(2);
    filled_by_servers(random, period, Table::new(NO_TIMER, rows, vec![]), short)
}

fn servers(random: &mut Random, count: u64) -> Option<Table> {
    let period = Period::large(random);
    let thousandths = 300 + random.below(600);
    let parts = random_rows(random, &period.divisors(8, MOST), count - 2, thousandths)?;
    let servers = parts.iter().map(|&[_, y, _, c]| [c, y]).collect();
    filled_by_servers(random, period, Table::new(NO_TIMER, vec![], servers), 1)
}

fn filled_by_servers(random: &mut Random, period: Period, mut table: Table, short: u64) -> Option<Table> {
    let rest = period.rest(random, &table, period.h - short)?;
    table.servers.extend(rest);
    Some(table)
}

/// The sum is 1 - 1/h.
fn row_beside(p: u64) -> Table {
    Table::new(Timer { s: p - 1, p }, vec![row_of([1, p + 1])], vec![])
}

/// A d of y + s is enough where rows have all that the timer leaves.
fn two_beside(random: &mut Random) -> Option<Table> {
    let period = Period::of([1_023, 1_024]);
    let timer = Timer { s: 384 + random.below(256), p: 1_023 };
    let mut table = Table::new(timer, vec![], vec![]);
    let rest = period.rest(random, &table, period.h - 1)?;
    table.rows = rest.map(|part| later(part, timer.s)).to_vec();
    Some(table)
}

fn six_beside(random: &mut Random) -> Option<Table> {
    let period = Period::large(random);
    let p = pick(random, &period.divisors(2, 1_024))?;
    let timer = Timer { s: 1 + random.below(p - 1), p };
    let thousandths = 100 + random.below(500);
    let rows = random_rows(random, &period.divisors(8, MOST), 5, thousandths)?;
    let mut table = Table::new(timer, rows, vec![]);
    let [row, server] = period.rest(random, &table, period.h - 1)?;
    table.rows.push(row_of(row));
    table.servers.push(server);
    for row in &mut table.rows {
        row[2] += 4 * timer.s;
    }
    Some(table)
}

fn later([c, y]: [u64; 2], by: u64) -> [u64; 4] {
    [1, y, y + by, c]
}

fn cost_1(random: &mut Random, least: usize, most: u64, lengths: RangeInclusive<u64>) -> Option<Table> {
    let period = Period::large(random);
    let lengths = period.divisors(*lengths.start(), *lengths.end());
    let rows = rows_of_cost_1(random, &lengths, most, 950)?;
    if rows.len() < least {
        return None;
    }
    let short = random.below(6);
    filled_by_servers(random, period, Table::new(NO_TIMER, rows, vec![]), short)?.tight()
}

fn cost_to_4(random: &mut Random) -> Option<Table> {
    let period = Period::large(random);
    let rows = rows_of_cost_to(random, 4, &period.divisors(16, 200), 16, 950)?;
    let short = random.below(6);
    filled_by_servers(random, period, Table::new(NO_TIMER, rows, vec![]), short)?.tight()
}

/// The d of one row is one tick less than it has to be, and no length up to D + h/64 shows that.
fn one_tick_less(random: &mut Random, make: impl Fn(&mut Random) -> Option<Table>) -> Option<Table> {
    let mut table = make(random)?;
    let row = random.below(table.rows.len() as u64) as usize;
    let [_, _, d, c] = table.rows[row];
    if d == c {
        return None;
    }
    table.rows[row][2] -= 1;
    let h = table.period();
    let witness = table.witness()?;
    (witness > table.largest_d() + h / 64 && witness <= h).then_some(table)
}

/// The slack falls by 10 to 1,000 in every period.
fn late_and_steep(random: &mut Random) -> Option<Table> {
    let period = Period::large(random);
    let over = 10 + random.below(991);
    let thousandths = 300 + random.below(600);
    let rows = random_rows(random, &period.divisors(32, 1_100), 14, thousandths)?;
    let mut table = Table::new(NO_TIMER, rows, vec![]);
    let rest = period.rest(random, &table, period.h + over)?;
    table.rows.extend(rest.map(row_of));
    let later = over * (2 + random.below(8));
    for row in &mut table.rows {
        row[2] = (row[1] + later).min(MOST_D);
    }
    table.fits().then_some(table)
}

/// The slack is small in all lengths, and falls by 1 in every period.
fn late_and_dense(random: &mut Random, most: u64, longest: u64) -> Option<Table> {
    let period = Period::large(random);
    let mut rows = rows_of_cost_1(random, &period.divisors(2, longest), most, 950)?;
    for row in &mut rows {
        row[2] += 16 + random.below(8);
    }
    let mut table = Table::new(NO_TIMER, rows, vec![]);
    let rest = period.rest(random, &table, period.h + 1)?;
    table.servers.extend(rest);
    table.fits().then_some(table)
}

fn few_divisors(random: &mut Random) -> Option<Table> {
    let period = Period::of([1_019, 1_021]);
    let rows = (0..3).map(|_| row_of([1 + random.below(4), period.two[random.below(2) as usize]])).collect();
    let short = random.below(6);
    filled_by_servers(random, period, Table::new(NO_TIMER, rows, vec![]), short)
}

/// The sum is 1 + 1/h, and each d is so large that the demand is above the length only about `goal` ticks later.
fn late(random: &mut Random, goal: u64, count: u64) -> Option<Table> {
    let period = match goal {
        1_000_000 => Period::random(random, 1_024, 256, 1_024),
        100_000_000 => Period::random(random, MOST, 8_192, 65_536),
        _ => Period::random(random, 1_100, 1_000_000, 1 << 20),
    };
    let mut table = Table::new(NO_TIMER, vec![], vec![]);
    if count == 1 && period.h < MOST {
        table.rows.push(row_of([period.h + 1, period.h]));
    } else {
        let thousandths = 300 + random.below(600);
        table.rows = random_rows(random, &period.divisors(count.max(8), 1_100), count.saturating_sub(2), thousandths)?;
        let [first, second] = period.rest(random, &table, period.h + 1)?;
        table.rows.push(row_of(second));
        match count {
            1 if first[0] < first[1] => table.timer = Timer { s: first[0], p: first[1] },
            1 => return None,
            _ => table.rows.push(row_of(first)),
        }
    }
    for row in &mut table.rows {
        row[2] = (row[1] + goal / period.h - random.below(8)).min(MOST_D);
    }
    // The slack falls by 1 in every period.
    (table.fits() && table.least_slack() as u64 * period.h >= goal / 2).then_some(table)
}

/// The plain program looks at so many lengths of these tables.
fn small(random: &mut Random, overloaded: bool, lengths: RangeInclusive<u64>) -> Option<Table> {
    let last = *lengths.end();
    let most = if last <= 64 { 8 } else { 24 };
    let p = 1 + random.below(most);
    let timer = if random.below(2) == 0 { NO_TIMER } else { Timer { s: random.below(p), p } };
    let (many_rows, many_servers) = (1 + random.below(5), random.below(3));
    let mut row = |_| {
        let d = 1 + random.below(2 * most);
        [1 + random.below(2), 1 + random.below(most), d, 1 + random.below(d.min(4))]
    };
    let rows = (0..many_rows).map(&mut row).collect();
    let mut server = |_| {
        let b = 1 + random.below(most);
        [1 + random.below(b.div_ceil(4)), b]
    };
    let servers = (0..many_servers).map(&mut server).collect();
    let table = Table::new(timer, rows, servers);
    let h = table.period();
    if h > (1 << 20) || table.growth(h) > 2 * h {
        return None;
    }
    let witness = (1..=last).find(|&length| table.demand(length) > length);
    let looked_at = match witness {
        Some(length) => length,
        None if table.growth(h) <= h => h + table.largest_d(),
        None => return None,
    };
    (witness.is_some() == overloaded && lengths.contains(&looked_at)).then_some(table)
}
