//! Compares the proved program with the second one, byte for byte: the status, the answer and the log. It also checks
//! that nothing else was touched. The first difference ends it, with everything that is needed to repeat it.

mod support;

use std::collections::BTreeSet;
use std::process::exit;
use support::bad_bytes::InNumber;
use support::case::{Call, Case};
use support::random::Random;
use support::tally::{Tally, SCRIPT_MISSPELLED, TABLE_MISSPELLED};
use support::{bad_bytes, definition, edges, families, settings};

const COMPARISONS: u64 = 250_000;
/// One table and one script in so many comparisons are damaged at every byte.
const DAMAGED_AT_EVERY_BYTE: u64 = 2_000;

const VERDICT_STATUSES: [u32; 9] = [1, 2, 3, 4, 5, 13, 16, 20, 21];
const REPLAY_STATUSES: [u32; 16] = [1, 2, 3, 4, 5, 6, 7, 8, 9, 10, 12, 13, 14, 16, 22, 23];

fn main() {
    let comparisons = settings::number("JYRMEKKO_COMPARISONS", COMPARISONS);
    let seed = settings::number("JYRMEKKO_SEED", 1);
    let mut compared = Compared { seed, families: 0, all: Tally::default() };

    compared.family("edges", edges::all().map(|case| move |_: &mut Random| case));
    let each = comparisons.div_ceil(families::ALL.len() as u64) as usize;
    for (name, make) in families::ALL {
        compared.family(name, std::iter::repeat_n(make, each));
    }
    for (name, cases) in families::AT_EVERY_BYTE {
        let cases = cases(seed, comparisons.div_ceil(DAMAGED_AT_EVERY_BYTE));
        compared.family(name, cases.map(|case| move |_: &mut Random| case));
    }

    let all = &compared.all;
    println!("{} comparisons with seed {seed}", all.total());
    println!("verdict: {}", all.histogram(Call::Verdict));
    println!("replay: {}", all.histogram(Call::Replay));
    println!("witnesses past H and the largest d: {}", all.late_witnesses);
    for call in [Call::Verdict, Call::Replay] {
        println!("at the limits, {call:?}: {}", all.limits(call));
        let missing = all.missing_limits(call);
        if !missing.is_empty() {
            println!("never met: {missing:?}");
            compared.fail();
        }
    }
    let missing = [all.missing(Call::Verdict, &VERDICT_STATUSES), all.missing(Call::Replay, &REPLAY_STATUSES)].concat();
    if !missing.is_empty() || all.late_witnesses == 0 {
        println!("never met: statuses {missing:?}, or late witnesses");
        compared.fail();
    }
    compared.bad_bytes("tables, verdict", Call::Verdict, TABLE_MISSPELLED, &bad_bytes::of_tables());
    compared.bad_bytes("tables, replay", Call::Replay, TABLE_MISSPELLED, &bad_bytes::of_tables());
    compared.bad_bytes("scripts, replay", Call::Replay, SCRIPT_MISSPELLED, &bad_bytes::of_records(families::RECORDS));
    println!("{} passed, 0 failed", compared.families + 1);
}

struct Compared {
    seed: u64,
    /// This many families of calls went through without a difference.
    families: u64,
    all: Tally,
}

impl Compared {
    fn family(&mut self, name: &str, makers: impl Iterator<Item = impl FnOnce(&mut Random) -> Case>) {
        let mut tally = Tally::default();
        for (index, make) in makers.enumerate() {
            let mut random = Random::of(self.seed, self.families << 40 | index as u64);
            let case = make(&mut random);
            let expected = case.by_second_program();
            let found = case.by_library(&mut random);
            if found != expected {
                println!("MISMATCH in '{name}', comparison {index}, seed {}", self.seed);
                println!("{case}second program:\n{expected}library:\n{found}");
                self.fail();
            }
            if definition::contradicts(&case, &expected) {
                println!("WRONG by the rules in '{name}', comparison {index}, seed {}", self.seed);
                println!("{case}both programs:\n{expected}");
                self.fail();
            }
            tally.count(&case, &expected);
        }
        println!("{:>9} {name}", tally.total());
        self.all.add(&tally);
        self.families += 1;
    }

    /// Says which bad bytes a call met in what it was lent. All that are wanted have to be among them.
    fn bad_bytes(&self, lent: &str, call: Call, status: u32, wanted: &BTreeSet<InNumber>) {
        let met = self.all.bad_bytes(call, status);
        println!("bad bytes of {lent}: {}", met.histogram(wanted));
        let missing = met.missing(wanted);
        if !missing.is_empty() {
            println!("never met: bad bytes {missing:?}");
            self.fail();
        }
    }

    fn fail(&self) -> ! {
        println!("{} passed, 1 failed", self.families);
        exit(1);
    }
}
