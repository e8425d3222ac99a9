//! Compares where the single calls find the bad byte of a number: the start of a run on a table, and the chooser over
//! two scripts. Every byte of what they read is damaged in turn.

mod support;

use second::refusal::Reason;
use second::trace::{kind, trace, Call};
use std::collections::BTreeSet;
use support::bad_bytes::{self, InNumber, Met};
use support::case::hex;
use support::random::Random;
use support::{chooser, settings};

/// Random tables and random scripts that are damaged at every byte.
const RANDOM_ONES: u64 = 100;

/// The second record is never looked at.
const RECORDS: usize = 2;

fn main() {
    let seed = settings::number("JYRMEKKO_SEED", 1);
    let starts = starts(seed);
    let [of_first, of_second] = [0, 1].map(|damaged| choices(seed, damaged));
    let of_records = bad_bytes::of_records(1);
    say("tables, start", &starts, &bad_bytes::of_tables());
    say("first scripts, chooser", &of_first, &of_records);
    say("second scripts, chooser", &of_second, &of_records);
    println!("3 passed, 0 failed");
}

fn say(lent: &str, met: &Met, wanted: &BTreeSet<InNumber>) {
    println!("bad bytes of {lent}: {}", met.histogram(wanted));
    let missing = met.missing(wanted);
    assert!(missing.is_empty(), "never met: bad bytes of {lent} {missing:?}");
}

fn starts(seed: u64) -> Met {
    let calls = [Call::Release { row: 0, cost: 1 }, Call::Tick];
    let mut met = Met::default();
    let mut count = 0;
    for table in bad_bytes::tables(seed, RANDOM_ONES) {
        let mut random = Random::of(seed, count);
        let expected = trace(&table, &calls);
        let (answers, found) = support::trace::by_library(&table, &calls, &mut random);
        assert!(
            answers as usize == expected.len() && found == support::trace::bytes_of(expected.iter().flatten().copied()),
            "MISMATCH in a run's start, comparison {count}, seed {seed}\ntable {}\n\
             second program: {expected:?}\nlibrary: {answers}, {}",
            hex(&table),
            hex(&found)
        );
        let [kind, number, place, _] = expected[0];
        if kind == kind::REFUSED && number == u64::from(Reason::Misspelled.number()) {
            met.count(&table, place as usize);
        }
        count += 1;
    }
    println!("{count:>9} starts on tables damaged at every byte");
    met
}

/// One of the two scripts is damaged, and the other has ended or can be read.
fn choices(seed: u64, damaged: usize) -> Met {
    let mut met = Met::default();
    let mut count = 0;
    for (_, script) in bad_bytes::scripts(RECORDS, seed, RANDOM_ONES) {
        let mut random = Random::of(seed, count);
        let mut lent = [(); 2].map(|()| random.pick(&[&[][..], &[3, 0, 1], &[0xac, 0x02, 1, 2, 0x80]]).to_vec());
        lent[damaged] = script;
        let times = [random.below(9), random.below(9)];
        let buffer = random.bytes(20);
        let expected = chooser::by_second_program(&lent, times, &buffer);
        let found = chooser::by_library(&lent, times, &buffer, &mut random);
        assert!(
            found == expected,
            "MISMATCH in the chooser, comparison {count}, seed {seed}, times {times:?}\nfirst {}\nsecond {}\n\
             second program: {expected:?}\nlibrary: {found:?}",
            hex(&lent[0]),
            hex(&lent[1])
        );
        let (number, [place, _], _) = expected;
        if number == Reason::ScriptMisspelled.number() {
            met.count(&lent[damaged], place as usize);
        }
        count += 1;
    }
    println!("{count:>9} choices with the {} script damaged at every byte", ["first", "second"][damaged]);
    met
}
