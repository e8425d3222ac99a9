//! Compares the chooser over two scripts.

mod support;

use second::run::LAST_TICK;
use std::collections::BTreeSet;
use support::case::hex;
use support::chooser::{by_library, by_second_program, A_RECORD};
use support::random::Random;
use support::{damage, scripts, settings};

/// There are at least this many choices, since with fewer some answers might not be met.
const CHOICES: u64 = 100_000;

fn random_script(random: &mut Random) -> Vec<u8> {
    let count = random.below(3);
    let records: Vec<_> = (0..count)
        .map(|_| {
            let gap = if random.one_in(5) { random.below(2 * LAST_TICK) } else { random.below(6) };
            [gap, random.below(20), random.below(300)]
        })
        .collect();
    match random.below(6) {
        0 => damage::mutate(&scripts::spell(&records), random),
        1 => damage::misspell_one(&scripts::numbers_of(&records), random),
        _ => scripts::spell(&records),
    }
}

/// Makes two scripts. Now and then they have the same bytes, and only the answer's second number tells whose record
/// comes next.
fn random_scripts(random: &mut Random) -> [Vec<u8>; 2] {
    let first = random_script(random);
    let second = if random.one_in(5) { first.clone() } else { random_script(random) };
    [first, second]
}

fn random_times(random: &mut Random) -> [u64; 2] {
    let time = match random.below(8) {
        0 => LAST_TICK - 2,
        1 => random.below(LAST_TICK),
        2 => u64::MAX - 8,
        _ => random.below(9),
    };
    [time + random.below(6), time + random.below(6)]
}

#[test]
fn chooser() {
    let seed = settings::number("JYRMEKKO_SEED", 1);
    let mut met = BTreeSet::new();
    for index in 0..settings::number("JYRMEKKO_COMPARISONS", 0).max(CHOICES) {
        let mut random = Random::of(seed, index);
        let lent = random_scripts(&mut random);
        let times = random_times(&mut random);
        let buffer = random.bytes(20);
        let expected = by_second_program(&lent, times, &buffer);
        let found = by_library(&lent, times, &buffer, &mut random);
        assert!(
            found == expected,
            "MISMATCH in the chooser, comparison {index}, seed {seed}, times {times:?}\nfirst {}\nsecond {}\n\
             second program: {expected:?}\nlibrary: {found:?}",
            hex(&lent[0]),
            hex(&lent[1])
        );
        let (number, [_, which], _) = expected;
        let scripts = match (lent[0].is_empty(), lent[1].is_empty()) {
            _ if number != A_RECORD => "refused",
            (true, true) => "both ended",
            (true, false) | (false, true) => "one ended",
            (false, false) if lent[0] == lent[1] && times[0] == times[1] => "the same",
            (false, false) => "different",
        };
        met.insert((number, which, scripts));
    }
    let records = [
        (A_RECORD, 0, "both ended"),
        (A_RECORD, 1, "different"),
        (A_RECORD, 1, "one ended"),
        (A_RECORD, 1, "the same"),
        (A_RECORD, 2, "different"),
        (A_RECORD, 2, "one ended"),
    ];
    let refusals = [(10, 1), (10, 2), (14, 1), (14, 2)].map(|(number, which)| (number, which, "refused"));
    assert_eq!(met, records.into_iter().chain(refusals).collect());
}
