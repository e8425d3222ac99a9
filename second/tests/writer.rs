//! Compares the number writer.

mod support;

use second::numbers::{self, LARGEST};
use std::collections::BTreeSet;
use support::case::hex;
use support::fenced::Fenced;
use support::random::Random;
use support::settings;

/// There are at least this many numbers, since with fewer some answers might not be met.
const NUMBERS: u64 = 200_000;

/// This is all that this file knows about the library's side. The call returns the spelling's length, 1 to 6, or the
/// refusal's number.
mod library {
    extern "C" {
        pub fn write_number(number: u64, buffer: *mut u8, buffer_len: usize) -> u32;
    }
}

fn by_library(number: u64, buffer: &[u8], random: &mut Random) -> (u32, Vec<u8>) {
    let mut lent = Fenced::around(buffer, random);
    let before = lent.clone();
    // SAFETY: pointer and length belong to one buffer, or are null and 0.
    let answer = unsafe { library::write_number(number, lent.pointer(), lent.len()) };
    assert!(lent.same_fence_as(&before), "{number} into {}", hex(buffer));
    (answer, lent.content())
}

fn by_second_program(number: u64, buffer: &[u8]) -> (u32, Vec<u8>) {
    let mut written = buffer.to_vec();
    let answer = numbers::write(number, &mut written).map_or_else(|reason| reason.number(), |length| length as u32);
    (answer, written)
}

fn random_number(random: &mut Random) -> u64 {
    match random.below(4) {
        0 => (1 << (7 * random.within(1, 6))) - 2 + random.below(4),
        1 => random.pick(&[0, 1, LARGEST - 1, LARGEST, LARGEST + 1, u64::MAX]),
        2 => random.next() >> random.below(64),
        _ => random.next() >> random.within(22, 63),
    }
}

#[test]
fn number_writer() {
    let seed = settings::number("JYRMEKKO_SEED", 1);
    let mut met = BTreeSet::new();
    for index in 0..settings::number("JYRMEKKO_COMPARISONS", 0).max(NUMBERS) {
        let mut random = Random::of(seed, index);
        let number = random_number(&mut random);
        let size = random.index(9);
        let buffer = random.bytes(size);
        let expected = by_second_program(number, &buffer);
        let found = by_library(number, &buffer, &mut random);
        assert_eq!(found, expected, "number {number}, buffer {}, comparison {index}, seed {seed}", hex(&buffer));
        met.insert(expected.0);
    }
    assert_eq!(met, BTreeSet::from([1, 2, 3, 4, 5, 6, 12, 25]));
}
