//! Every bad byte that a number can have, in every number of a table or a script: inputs that have them, and an account
//! of those that were met.

use super::case::hex;
use super::random::Random;
use super::scripts::Record;
use super::servers::Server;
use super::tables::{spell_numbers, Row, Table};
use super::{damage, scripts, tables};
use second::numbers::MOST_GROUPS;
use second::table::{MOST_ROWS, MOST_SERVERS, MOST_X};
use std::collections::{BTreeMap, BTreeSet};

/// The timer's s and p, the row count and four numbers for each row, the server count and two numbers for each server of a
/// longest table.
const NUMBERS_OF_A_TABLE: usize = 3 + 4 * MOST_ROWS as usize + 1 + 2 * MOST_SERVERS as usize;
const NUMBERS_OF_A_RECORD: usize = 3;

/// What is wrong with a number, as the place of its refusal shows it. Groups are counted from 0.
#[derive(Clone, Copy, Debug, PartialEq, Eq, PartialOrd, Ord)]
pub enum Bad {
    /// The number's last group is zero and has groups before it.
    ZeroGroup { group: usize, bytes_after: bool },
    /// The sixth group asks for a seventh.
    SixthAsksForMore { bytes_after: bool },
    /// The bytes end after so many groups that ask for more.
    CutOff { groups: usize },
}

impl Bad {
    fn all() -> Vec<Bad> {
        let mut all: Vec<Bad> = (0..MOST_GROUPS).map(|groups| Bad::CutOff { groups }).collect();
        for bytes_after in [false, true] {
            all.extend((1..MOST_GROUPS).map(|group| Bad::ZeroGroup { group, bytes_after }));
            all.push(Bad::SixthAsksForMore { bytes_after });
        }
        all
    }

    fn name(self) -> &'static str {
        match self {
            Bad::ZeroGroup { .. } => "superfluous zero group",
            Bad::SixthAsksForMore { .. } => "sixth group asks for more",
            Bad::CutOff { .. } => "cut off",
        }
    }
}

/// A bad byte of a list of numbers: which number it is in, counted from 0, and what is wrong with it.
pub type InNumber = (usize, Bad);

/// The bad byte that a refusal's place points at. All numbers before it are rightly spelled, so that each of them ends
/// in the one byte of its own that asks for nothing more.
fn pointed_at(bytes: &[u8], place: usize) -> Option<InNumber> {
    let before = bytes.get(..place)?;
    let asks_for_more = |byte: &&u8| **byte >= 0x80;
    let number = before.len() - before.iter().filter(asks_for_more).count();
    let group = before.iter().rev().take_while(asks_for_more).count();
    let bytes_after = place + 1 < bytes.len();
    match bytes.get(place) {
        None if group < MOST_GROUPS => Some((number, Bad::CutOff { groups: group })),
        Some(0x00) if 0 < group && group < MOST_GROUPS => Some((number, Bad::ZeroGroup { group, bytes_after })),
        Some(0x80..) if group == MOST_GROUPS - 1 => Some((number, Bad::SixthAsksForMore { bytes_after })),
        _ => None,
    }
}

/// How often each bad byte was met.
#[derive(Default)]
pub struct Met(BTreeMap<InNumber, u64>);

impl Met {
    /// Counts the bad byte that a refusal points at, which has to be there.
    pub fn count(&mut self, bytes: &[u8], place: usize) {
        let bad = pointed_at(bytes, place).unwrap_or_else(|| panic!("no bad byte at {place} of {}", hex(bytes)));
        *self.0.entry(bad).or_default() += 1;
    }

    pub fn add(&mut self, other: &Met) {
        for (&bad, count) in &other.0 {
            *self.0.entry(bad).or_default() += count;
        }
    }

    /// How often each kind was met, and how many of the wanted bad bytes were.
    pub fn histogram(&self, wanted: &BTreeSet<InNumber>) -> String {
        let mut kinds: BTreeMap<&str, u64> = BTreeMap::new();
        for ((_, bad), count) in &self.0 {
            *kinds.entry(bad.name()).or_default() += count;
        }
        let parts: Vec<String> = kinds.iter().map(|(kind, count)| format!("{kind}: {count}")).collect();
        let met = wanted.len() - self.missing(wanted).len();
        format!("{}; {met} of {} different ones", parts.join(", "), wanted.len())
    }

    /// Those of the wanted bad bytes that were never met.
    pub fn missing(&self, wanted: &BTreeSet<InNumber>) -> Vec<InNumber> {
        wanted.iter().copied().filter(|bad| !self.0.contains_key(bad)).collect()
    }
}

/// Every bad byte in every number of the longest table.
pub fn of_tables() -> BTreeSet<InNumber> {
    (0..NUMBERS_OF_A_TABLE).flat_map(|number| Bad::all().into_iter().map(move |bad| (number, bad))).collect()
}

/// Every bad byte in every number of so many records. A script without any byte of a gap ends before its record, so no
/// gap is missing altogether.
pub fn of_records(count: usize) -> BTreeSet<InNumber> {
    let numbers = 0..NUMBERS_OF_A_RECORD * count;
    let any_bad = numbers.flat_map(|number| Bad::all().into_iter().map(move |bad| (number, bad)));
    any_bad.filter(|&(number, bad)| number % NUMBERS_OF_A_RECORD != 0 || bad != Bad::CutOff { groups: 0 }).collect()
}

/// Spellings of a list of numbers in which one number is replaced by one of 1 to 6 groups, and one byte of that is
/// damaged. This is done for each number, each length, each byte and each damage, with the numbers after it and without
/// them. The last number has a byte too many after it instead.
fn in_every_number(list: &[u64], random: &mut Random) -> BTreeSet<Vec<u8>> {
    let mut all = BTreeSet::new();
    for number in 0..list.len() {
        let before = spell_numbers(&list[..number]);
        let others = spell_numbers(&list[number + 1..]);
        let after = if others.is_empty() { vec![0x01] } else { others };
        for groups in 1..=MOST_GROUPS {
            let spelled = of_groups(groups, random);
            for whole in [[&before[..], &spelled, &after].concat(), [&before[..], &spelled].concat()] {
                let places = before.len()..before.len() + groups;
                all.extend(places.flat_map(|place| damage::at(&whole, place)));
                all.insert(whole);
            }
        }
    }
    all
}

/// A number of so many groups.
fn of_groups(groups: usize, random: &mut Random) -> Vec<u8> {
    let mut bytes: Vec<u8> = (1..groups).map(|_| random.pick(&[0x80, 0x81, 0xc0, 0xff])).collect();
    bytes.push(random.pick(&[0x01, 0x02, 0x40, 0x7f]));
    bytes
}

/// Tables with one byte damaged, each byte in turn: a longest one, in which each number has each length, and so many
/// random ones.
pub fn tables(seed: u64, count: u64) -> impl Iterator<Item = Vec<u8>> {
    let mut random = Random::of(seed, u64::MAX);
    let rows: Vec<Row> = (0..MOST_ROWS).map(|_| row_of_any_length(&mut random)).collect();
    let servers = (0..MOST_SERVERS).map(|_| server_of_any_length(&mut random)).collect();
    let longest = Table { timer: [3, 8], rows, servers };
    let random_ones = (0..count).flat_map(move |index| {
        let table = tables::any(&mut Random::of(seed, index));
        damage::everywhere(&table.spell())
    });
    in_every_number(&longest.numbers(), &mut random).into_iter().chain(random_ones)
}

/// A row that is accepted, whose y, d and c have spellings of all lengths that the range allows.
fn row_of_any_length(random: &mut Random) -> Row {
    let bits_of_d = random.pick(&[0, 7, 12, 14, 14, 14]);
    let bits_of_c = random.pick(&[0, 0, 0, 4, 8, 12]);
    let (d, c) = (random.within(1, 1 << bits_of_d), random.within(1, 1 << bits_of_c));
    [random.within(1, MOST_X), 1 << random.within(0, 12), d, c.min(d)]
}

/// A server that is accepted, whose a and b have spellings of all lengths that the range allows.
fn server_of_any_length(random: &mut Random) -> Server {
    let b = 1 << random.within(0, 12);
    [random.within(1, b), b]
}

/// Tables with scripts of at most so many records. The script has one byte damaged, each byte in turn: one script in
/// which each number has each length, and so many random ones.
pub fn scripts(most_records: usize, seed: u64, count: u64) -> impl Iterator<Item = (Vec<u8>, Vec<u8>)> {
    let mut random = Random::of(seed, u64::MAX);
    let rows = [[64, 1, 16_384, 4_096]; MOST_ROWS as usize];
    let table = tables::spell_all([1, 4], &rows, &[[1, 8]; MOST_SERVERS as usize]);
    let records: Vec<_> = (0..most_records).map(|_| record_of_any_length(&mut random)).collect();
    let random_ones = (0..count).flat_map(move |index| {
        let mut random = Random::of(seed, index);
        let table = tables::to_replay(&mut random);
        let mut records = scripts::any(&table, &mut random);
        records.truncate(most_records);
        let table = table.spell();
        damage::everywhere(&scripts::spell(&records)).into_iter().map(move |script| (table.clone(), script))
    });
    let damaged = in_every_number(&scripts::numbers_of(&records), &mut random);
    damaged.into_iter().map(move |script| (table.clone(), script)).chain(random_ones)
}

/// A record that can be released, with a short gap or a long one.
fn record_of_any_length(random: &mut Random) -> Record {
    let bits = random.within(0, 30);
    [random.below(1 << bits), random.below(MOST_ROWS + MOST_SERVERS), random.within(1, 300)]
}
