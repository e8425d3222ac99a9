//! Verdicts beside the plain program, which looks at the demand in every length from 1 up. `bench/run quick` measures
//! families of random tables, and further words choose the families whose name has one of them. A ratio says how many times
//! as fast as the plain program the library is. All answers have to be the same.

mod families;
mod tables;

use crate::cases::{grouped, Random};
use crate::{clock, library, plain};
use families::Family;
use std::hint::black_box;
use std::time::Duration;
use tables::Table;

/// A pair has this many rounds, unless another number is asked for.
pub const ROUNDS: usize = 3;
/// The request asks for this ratio wherever a larger one is the target.
const ASKED: f64 = 10.0;
/// One turn of a program is repeated until it takes about this time, so that the clock can tell.
const TURN: Duration = Duration::from_micros(300);
/// A look is the count of one term in one length. The plain program takes about a second for this many. Where a table has
/// more it makes only a part of them, and its time is reckoned from that.
const LOOKS: u64 = 400_000_000;
const PART: u64 = 40_000_000;

const FEASIBLE: u32 = 20;
const OVERLOADED: u32 = 21;

type Said = (u32, [u8; 16]);

pub fn measure(words: &[String], rounds: usize) {
    println!("| family | tables | lengths, up to | least ratio | median | at least | | proved, ms, up to | plain, ms, up to |");
    println!("|---|--:|--:|--:|--:|--:|---|--:|--:|");
    for family in families::all() {
        if words.is_empty() || words.iter().any(|word| family.name.contains(word.as_str())) {
            println!("{}", line(&family, rounds));
        }
    }
    println!("\nBest of {rounds} rounds, by turns; processor time of one table. The ratio is how many times as fast the proved");
    println!("program is. Reckoned: the plain program looks at a part of the lengths only, and its time is set to all of them.");
}

/// What one measurement found. The times are those of one table, in ms.
struct Found {
    proved: f64,
    plain: f64,
    lengths: u64,
    reckoned: bool,
}

/// Measures one family, and returns its line of the table.
fn line(family: &Family, rounds: usize) -> String {
    let Family { name, target, samples, each, make } = family;
    let mut random = Random(1);
    let mut table = |_| loop {
        if let Some(table) = make(&mut random) {
            return table;
        }
    };
    let mut found = Vec::new();
    for _ in 0..*samples {
        let tables: Vec<Table> = (0..*each).map(&mut table).collect();
        found.push(compare(name, &tables, rounds));
    }
    let mut ratios: Vec<f64> = found.iter().map(|found| found.plain / found.proved).collect();
    ratios.sort_by(f64::total_cmp);
    let (least, median) = (ratios[0], ratios[ratios.len() / 2]);
    let below = ratios.iter().filter(|ratio| *ratio < target).count();
    let met = match below {
        0 => "met".to_string(),
        _ if *target > ASKED && least >= ASKED => format!("**missed** by {below}, none below {ASKED}"),
        _ => format!("**missed** by {below}"),
    };
    let largest = |time: fn(&Found) -> f64| found.iter().map(time).fold(0.0, f64::max);
    let (proved, plain) = (largest(|found| found.proved), largest(|found| found.plain));
    let reckoned = if found.iter().any(|found| found.reckoned) { ", reckoned" } else { "" };
    let lengths = grouped(found.iter().map(|found| found.lengths).max().unwrap_or(0));
    let count = if *each > 1 { format!("{samples} times {each}") } else { samples.to_string() };
    let [least, median, proved, plain] = [least, median, proved, plain].map(three_digits);
    format!("| {name} | {count} | {lengths} | {least} | {median} | {target} | {met} | {proved} | {plain}{reckoned} |")
}

/// Judges the same tables with both programs, by turns.
fn compare(name: &str, tables: &[Table], rounds: usize) -> Found {
    let bytes: Vec<Vec<u8>> = tables.iter().map(Table::bytes).collect();
    let mut proved: Vec<Said> = vec![(0, [0; 16]); tables.len()];
    let mut plain = proved.clone();
    judge(library::verdict, &bytes, &mut proved);
    let lengths: Vec<u64> = tables.iter().zip(&proved).map(|(table, said)| looked_at(name, table, said)).collect();
    let looks: u64 = tables.iter().zip(&lengths).map(|(table, lengths)| table.terms() * lengths).sum();
    let reckoned = looks > LOOKS;
    // The tables of one measurement have about as many terms, and a large one is alone.
    let part = PART / tables[0].terms();

    let mut best = [f64::MAX; 2];
    for _ in 0..rounds {
        let by_library = time(|| judge(library::verdict, &bytes, &mut proved));
        let by_plain = match reckoned {
            false => time(|| judge(plain::verdict, &bytes, &mut plain)),
            true => {
                let found = time(|| assert!(black_box(plain::fits_to)(&bytes[0], part), "{name}: an early witness"));
                found * lengths[0] as f64 / part as f64
            }
        };
        assert!(reckoned || proved == plain, "{name}: the answers differ: {:?}", bytes);
        best = [best[0].min(by_library), best[1].min(by_plain)];
    }
    let [proved, plain] = best.map(|time| time / tables.len() as f64);
    Found { proved, plain, lengths: lengths.into_iter().max().unwrap_or(0), reckoned }
}

fn judge(verdict: fn(&[u8], &mut [u8]) -> u32, tables: &[Vec<u8>], said: &mut [Said]) {
    for (table, (status, answer)) in tables.iter().zip(said) {
        *status = black_box(verdict)(black_box(table), answer);
    }
}

/// Returns how many lengths the plain program looks at. The demand in a witness has to be above it, and the length before it
/// has to fit.
fn looked_at(name: &str, table: &Table, (status, answer): &Said) -> u64 {
    let [length, demand] = [0, 8].map(|at| u64::from_le_bytes(answer[at..at + 8].try_into().unwrap()));
    match *status {
        FEASIBLE => table.period() + table.largest_d(),
        OVERLOADED => {
            let first = table.demand(length) == demand && demand > length && table.demand(length - 1) < length;
            assert!(first, "{name}: {length} with {demand} is no witness");
            length
        }
        _ => panic!("{name}: status {status}"),
    }
}

/// Returns the time of one call, in ms.
fn time(mut call: impl FnMut()) -> f64 {
    let start = clock::now();
    let (mut calls, mut taken) = (0, Duration::ZERO);
    let mut more = 1;
    while taken < TURN {
        (0..more).for_each(|_| call());
        calls += more;
        more = calls;
        taken = clock::now() - start;
    }
    taken.as_secs_f64() * 1e3 / f64::from(calls)
}

/// Writes a number with three digits that say something, or more where it is above 1,000.
fn three_digits(number: f64) -> String {
    match number {
        _ if number >= 100.0 => grouped(number.round() as u64),
        _ if number >= 10.0 => format!("{number:.1}"),
        _ if number >= 0.1 => format!("{number:.2}"),
        _ => format!("{number:.5}"),
    }
}
