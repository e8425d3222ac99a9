//! Scripts for a table: quiet, crowded, and at the end of time.

use super::random::Random;
use super::tables::{spell_numbers, Table};
use second::run::{LAST_TICK, MOST_PENDING};
use second::table::{MOST_B, MOST_C, MOST_ODD_COST, MOST_ROWS};

/// A record is a gap, a row number and a cost.
pub type Record = [u64; 3];

pub fn spell(records: &[Record]) -> Vec<u8> {
    spell_numbers(&numbers_of(records))
}

pub fn numbers_of(records: &[Record]) -> Vec<u64> {
    records.iter().flatten().copied().collect()
}

pub fn any(table: &Table, random: &mut Random) -> Vec<Record> {
    let kinds = [quiet, quiet, crowded, burst, near_the_end, far_apart];
    let mut records = random.pick(&kinds)(table, random);
    if random.one_in(4) {
        spoil_a_value(table, &mut records, random);
    }
    records
}

/// As many ticks as a replay can be waited for, about.
const PATIENCE: u64 = 40_000;

/// Returns how many ticks there are for each one that the timer leaves free.
fn ticks_for_a_unit(table: &Table) -> u64 {
    let [s, p] = table.timer;
    if s < p {
        p.div_ceil(p - s)
    } else {
        1
    }
}

fn job(table: &Table, gap: u64, most_cost: u64, random: &mut Random) -> Record {
    let row = random.below(table.row_numbers().max(1));
    let most_cost = (most_cost / ticks_for_a_unit(table)).max(1);
    let highest = table.most_cost(row).min(most_cost);
    [gap, row, if random.one_in(8) { highest } else { random.within(1, highest) }]
}

/// Makes so many jobs, or fewer where the timer leaves only a few ticks free.
fn jobs(table: &Table, count: u64, most_gap: u64, most_cost: u64, random: &mut Random) -> Vec<Record> {
    let most = (PATIENCE / ticks_for_a_unit(table)).max(3);
    (0..count.min(most))
        .map(|_| {
            let gap = random.within(0, most_gap);
            job(table, gap, most_cost, random)
        })
        .collect()
}

fn quiet(table: &Table, random: &mut Random) -> Vec<Record> {
    let count = random.below(12);
    let most_cost = random.pick(&[3, 30, MOST_C]);
    jobs(table, count, 10, most_cost, random)
}

fn crowded(table: &Table, random: &mut Random) -> Vec<Record> {
    let count = if random.one_in(30) { random.within(300, 2_000) } else { random.within(20, 2 * MOST_PENDING as u64) };
    let most_gap = random.within(1, 6);
    jobs(table, count, most_gap, 5, random)
}

/// Makes a number of jobs that take all places, or that are a few fewer or a few more.
pub fn near_the_last_place(random: &mut Random) -> u64 {
    MOST_PENDING as u64 - 2 + random.below(5)
}

/// Fills the places to the last one or just past it, once or with a few jobs finished in between.
pub fn burst(table: &Table, random: &mut Random) -> Vec<Record> {
    let count = near_the_last_place(random);
    let mut records = jobs(table, count, 0, random.pick(&[1, 2, 9]), random);
    for _ in 0..random.below(3) {
        let pause = random.within(1, 4);
        let again = random.within(1, 4);
        records.push(job(table, pause, 2, random));
        records.extend(jobs(table, again, 0, 2, random));
    }
    records
}

/// Makes due times, script times or final ticks that reach 2^40 or just miss it.
pub fn near_the_end(table: &Table, random: &mut Random) -> Vec<Record> {
    if !table.servers.is_empty() && random.one_in(2) {
        return odd_jobs_near_the_end(table, random);
    }
    let d = if table.rows.is_empty() { 1 } else { random.pick(&table.rows)[2] };
    let from_the_end = match random.below(4) {
        0 => random.below(4),
        1 => d.saturating_add(random.below(4)).saturating_sub(1),
        2 => d.saturating_mul(random.within(1, 3)),
        _ => random.below(200),
    };
    let count = random.pick(&[1, 2, 3, 6, MOST_PENDING as u64, MOST_PENDING as u64 + 1]);
    let most_gap = random.pick(&[0, 0, 1, 3]);
    let most_cost = random.pick(&[1, 3, 40]);
    let mut records = jobs(table, count, most_gap, most_cost, random);
    records[0][0] = LAST_TICK.saturating_sub(from_the_end);
    if random.one_in(3) {
        let before = random.within(1, 3);
        let mut early = jobs(table, before, 2, 3, random);
        let passed: u64 = early.iter().map(|record| record[0]).sum();
        records[0][0] = records[0][0].saturating_sub(passed);
        early.extend(records);
        records = early;
    }
    if random.one_in(3) {
        let passed: u64 = records.iter().map(|record| record[0]).sum();
        let to_the_end = LAST_TICK.saturating_sub(passed);
        records.push(job(table, to_the_end + random.below(2), 3, random));
    }
    records
}

/// Makes odd jobs of one server whose due times reach 2^40 or just miss it. The first may be one of full cost. There are
/// more after it, at once or after a while.
fn odd_jobs_near_the_end(table: &Table, random: &mut Random) -> Vec<Record> {
    let server = random.index(table.servers.len());
    let row = (table.rows.len() + server) as u64;
    let [a, b] = table.servers[server].map(|number| number.max(1));
    let most_cost = (MOST_ODD_COST / ticks_for_a_unit(table)).max(1);
    let costs: Vec<u64> =
        (0..random.pick(&[1, 1, 2, 3])).map(|_| random.pick(&[1, 2, 9, 300, MOST_ODD_COST]).min(most_cost)).collect();
    let ticks: u64 = costs.iter().map(|cost| (cost * b).div_ceil(a)).sum();
    let to_the_first = (LAST_TICK - ticks.min(LAST_TICK) + random.below(4)).saturating_sub(2);
    let mut records: Vec<Record> = costs.iter().map(|&cost| [0, row, cost]).collect();
    records[0][0] = to_the_first;
    if random.one_in(2) {
        records.push([random.below(3), row, random.within(1, 3)]);
    }
    if random.one_in(3) {
        records.push(job(table, random.below(2), 3, random));
    }
    records
}

/// Makes long times with nothing pending, which have to be crossed in one go.
fn far_apart(table: &Table, random: &mut Random) -> Vec<Record> {
    let count = random.within(1, 20);
    (0..count)
        .map(|_| {
            let bits = random.within(1, 41);
            let gap = random.below(1 << bits);
            job(table, gap, 20, random)
        })
        .collect()
}

/// Gives a record a row number that is not in use, a cost that is 0 or above the most, or a time above 2^40.
pub fn spoil_a_value(table: &Table, records: &mut [Record], random: &mut Random) {
    if records.is_empty() {
        return;
    }
    let record = random.index(records.len());
    let count = table.row_numbers();
    let c = table.most_cost(records[record][1]);
    let [gap, row, cost] = &mut records[record];
    match random.below(3) {
        0 => *gap = random.pick(&[LAST_TICK, LAST_TICK + 1, 2 * LAST_TICK, 4 * LAST_TICK - 1]),
        1 => {
            let far = random.pick(&[MOST_ROWS, MOST_ROWS + 1, MOST_ROWS + 8, 1 << 8, 1 << 16, 1 << 32, 1 << 41]);
            *row = random.pick(&[count, count, count + 1, far, far]);
        }
        _ => *cost = random.pick(&[0, c + 1, c + 1, c + (1 << 8), c + (1 << 16), c + (1 << 32), 1 << 41]),
    }
}

/// Makes a job with a late due time that waits for many short jobs. Its log record comes last and is shorter than many
/// before it, so it would still fit where theirs did not.
pub fn waiting_job(random: &mut Random) -> (Table, Vec<Record>) {
    let timer = random.pick(&[[0, 1], [0, 1], [0, 7], [1, 4], [1, 12], [2, 3]]);
    let rows = vec![[1, 1, 16_000, 4], [64, 1, random.within(1, 3), 1]];
    // The job that waits may be an odd job.
    let servers = if random.one_in(3) { vec![[1, MOST_B]] } else { vec![] };
    let waits = 2 * servers.len() as u64;
    let mut records = vec![[0, waits, random.within(1, 4)], [0, 1, 1]];
    records.resize(random.within(130, 160) as usize, [1, 1, 1]);
    (Table { timer, rows, servers }, records)
}
