//! Compares the two engines of the library's verdict, with the second program and so with each other: the one that leaves
//! lengths out, which hosts have, on every table, and the one that looks at every length in turn wherever it can be
//! waited for.

mod support;

use second::host::{FEASIBLE, OVERLOADED};
use second::table::{self, MOST_P, MOST_ROWS};
use std::collections::BTreeMap;
use std::process::exit;
use support::case::{Case, Outcome};
use support::engines::{by_every_length, sum, Can, Family, ALL, LONG};
use support::families::PATIENCE;
use support::random::Random;
use support::settings;
use support::tables::last_of_first_period;

/// There are at least this many tables, since with fewer some witnesses might not be met.
const TABLES: u64 = 100_000;

/// One table of a family in so many has to be feasible and one overloaded, at least, where they can be both.
const SELDOM: u64 = 50;

/// One table with a long period in so many has to be of each kind, at least.
const SELDOM_MET: u64 = 1_000;

/// A sum is a little above 1 where it is above it by at most so many times 1 / H.
const A_LITTLE: u64 = 1_000;

/// From this H on the periods are among the longest.
const LONGEST: u64 = 1 << 18;

/// What was met of the tables with a long period. D is the largest d.
#[derive(Clone, Copy, Debug, PartialEq, Eq, PartialOrd, Ord)]
enum Met {
    SumIs1,
    SumIs1LessOneOverH,
    SumIsALittleAbove1,
    AnyOtherSum,
    HAmongTheLongest,
    AllTicksButOneTakenIn4096,
    MostRows,
    Feasible,
    WitnessTo64,
    WitnessToHOver64,
    WitnessToH,
    WitnessInTheLastEighthOfH,
    WitnessToHAndD,
    WitnessLater,
    /// The witness is past 1,000 H.
    WitnessMuchLater,
}

const WANTED: [Met; 15] = [
    Met::SumIs1,
    Met::SumIs1LessOneOverH,
    Met::SumIsALittleAbove1,
    Met::AnyOtherSum,
    Met::HAmongTheLongest,
    Met::AllTicksButOneTakenIn4096,
    Met::MostRows,
    Met::Feasible,
    Met::WitnessTo64,
    Met::WitnessToHOver64,
    Met::WitnessToH,
    Met::WitnessInTheLastEighthOfH,
    Met::WitnessToHAndD,
    Met::WitnessLater,
    Met::WitnessMuchLater,
];

fn met(table: &table::Table, outcome: &Outcome) -> Vec<Met> {
    let h = table.period;
    let of_sum = match sum(table) {
        sum if sum == h => Met::SumIs1,
        sum if sum + 1 == h => Met::SumIs1LessOneOverH,
        sum if sum > h && sum <= h + A_LITTLE => Met::SumIsALittleAbove1,
        _ => Met::AnyOtherSum,
    };
    let of_verdict = match outcome.first() as u64 {
        _ if outcome.status == FEASIBLE => Met::Feasible,
        length if length <= 64 => Met::WitnessTo64,
        length if length <= h / 64 => Met::WitnessToHOver64,
        length if length <= h => Met::WitnessToH,
        length if length <= last_of_first_period(table) => Met::WitnessToHAndD,
        length if length <= 1_000 * h => Met::WitnessLater,
        _ => Met::WitnessMuchLater,
    };
    let late_in_h = outcome.status == OVERLOADED && (h - h / 8..=h).contains(&(outcome.first() as u64));
    let others = [
        (Met::HAmongTheLongest, h >= LONGEST),
        (Met::AllTicksButOneTakenIn4096, [table.timer.s, table.timer.p] == [MOST_P - 1, MOST_P]),
        (Met::MostRows, table.rows.len() as u64 == MOST_ROWS),
        (Met::WitnessInTheLastEighthOfH, late_in_h),
    ];
    let others = others.into_iter().filter(|(_, is_met)| *is_met).map(|(met, _)| met);
    [of_sum, of_verdict].into_iter().chain(others).collect()
}

fn main() {
    let seed = settings::number("JYRMEKKO_SEED", 1);
    let tables = settings::number("JYRMEKKO_COMPARISONS", 0).max(settings::number("JYRMEKKO_TABLES", TABLES));
    let mut compared = Compared { seed, families: 0, tables: 0, long: 0, every_length: 0, met: BTreeMap::new() };
    for family in &ALL {
        compared.family(family, (tables * family.share).div_ceil(100));
    }
    let parts: Vec<String> = compared.met.iter().map(|(met, count)| format!("{met:?}: {count}")).collect();
    println!(
        "{} tables with seed {seed}, every length looked at: {}, a long period: {}, of which {}",
        compared.tables,
        compared.every_length,
        compared.long,
        parts.join(", ")
    );
    let seldom = |met: &Met| compared.met.get(met).is_none_or(|count| count * SELDOM_MET < compared.long);
    let missing: Vec<Met> = WANTED.into_iter().filter(seldom).collect();
    if !missing.is_empty() || compared.every_length * 2 < compared.tables {
        println!("met too seldom: {missing:?}, or every length looked at");
        compared.fail();
    }
    println!("{} passed, 0 failed", compared.families + 1);
}

struct Compared {
    seed: u64,
    /// This many families of tables went through without a difference.
    families: u64,
    tables: u64,
    /// This many tables had a long period.
    long: u64,
    /// On this many tables the engine that looks at every length was asked.
    every_length: u64,
    met: BTreeMap<Met, u64>,
}

impl Compared {
    fn family(&mut self, family: &Family, count: u64) {
        let [mut feasible, mut overloaded] = [0, 0];
        for index in 0..count {
            let mut random = Random::of(self.seed, self.families << 40 | index);
            let table = family.table(index, &mut random).spell();
            let case = Case::verdict(table, random.bytes(16));
            let expected = case.by_second_program();
            self.hold("the library", &case.by_library(&mut random), &case, &expected, family, index);
            let table = match (expected.status, table::read(&case.table)) {
                (FEASIBLE | OVERLOADED, Ok(table)) => table,
                _ => {
                    println!("refused, but good tables are made: '{}', table {index}\n{case}", family.name);
                    self.fail();
                }
            };
            let lengths = if expected.status == FEASIBLE {
                feasible += 1;
                last_of_first_period(&table)
            } else {
                overloaded += 1;
                expected.first() as u64
            };
            if lengths <= PATIENCE {
                let found = by_every_length(&case, &mut random);
                self.hold("every length in turn", &found, &case, &expected, family, index);
                self.every_length += 1;
            }
            if table.period >= LONG {
                self.long += 1;
                met(&table, &expected).into_iter().for_each(|met| *self.met.entry(met).or_default() += 1);
            }
        }
        println!("{count:>9} {}, feasible {feasible}, overloaded {overloaded}", family.name);
        let least = count.div_ceil(SELDOM);
        let as_it_should_be = match family.can {
            Can::Both => feasible >= least && overloaded >= least,
            Can::OnlyOverloaded => feasible == 0 && overloaded == count,
        };
        if !as_it_should_be {
            println!("a verdict that can be was met too seldom, or one that can't be was met");
            self.fail();
        }
        self.families += 1;
        self.tables += count;
    }

    /// Holds the outcome of one engine to that of the second program.
    fn hold(&self, engine: &str, found: &Outcome, case: &Case, expected: &Outcome, family: &Family, index: u64) {
        if found != expected {
            println!("MISMATCH in '{}', table {index}, seed {}, by {engine}", family.name, self.seed);
            println!("{case}second program:\n{expected}{engine}:\n{found}");
            self.fail();
        }
    }

    fn fail(&self) -> ! {
        println!("{} passed, 1 failed", self.families);
        exit(1);
    }
}
