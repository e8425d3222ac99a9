//! The families of random calls, each named after what it tries.

use super::case::Case;
use super::random::Random;
use super::{bad_bytes, damage, hopeless, scripts, servers, tables, timers};
use second::{replay, table};

/// As many lengths as a program that looks at every length can be waited for.
pub const PATIENCE: u64 = 20_000;

/// As many records as a script has that is damaged at every byte.
pub const RECORDS: usize = 5;

pub type Family = (&'static str, fn(&mut Random) -> Case);

pub const ALL: [Family; 18] = [
    ("verdicts", |random| {
        let table = tables::any(random);
        judge(table.spell(), random)
    }),
    ("verdicts with late witnesses", |random| {
        let table = tables::to_search(random);
        judge(table.spell(), random)
    }),
    ("verdicts with a timer", |random| {
        let table = tables::timed(random);
        judge(table.spell(), random)
    }),
    ("verdicts with servers", |random| {
        let table = tables::served(random);
        judge(table.spell(), random)
    }),
    ("verdicts of damaged tables", |random| {
        let table = tables::any(random);
        judge(damaged(&table.numbers(), random), random)
    }),
    ("replays", |random| {
        let table = tables::to_replay(random);
        let records = scripts::any(&table, random);
        play(table.spell(), scripts::spell(&records), random)
    }),
    ("replays with a timer", |random| {
        let table = tables::timed_to_replay(random);
        let records = scripts::any(&table, random);
        play(table.spell(), scripts::spell(&records), random)
    }),
    ("replays with servers", |random| {
        let table = tables::served_to_replay(random);
        let records = scripts::any(&table, random);
        play(table.spell(), scripts::spell(&records), random)
    }),
    ("replays to the last place", |random| {
        let table = tables::to_replay(random);
        let records = scripts::burst(&table, random);
        play(table.spell(), scripts::spell(&records), random)
    }),
    ("replays near the last tick", |random| {
        let table = tables::to_replay(random);
        let records = scripts::near_the_end(&table, random);
        play(table.spell(), scripts::spell(&records), random)
    }),
    ("replays that end on a short record", |random| {
        let (table, records) = scripts::waiting_job(random);
        play(table.spell(), scripts::spell(&records), random)
    }),
    ("replays refused after an overflow", |random| {
        let table = tables::to_replay(random);
        let mut records = scripts::any(&table, random);
        let last = records.len().saturating_sub(1);
        scripts::spoil_a_value(&table, &mut records[last..], random);
        let mut case = play(table.spell(), scripts::spell(&records), random);
        case.log.truncate(random.index(12));
        case
    }),
    ("replays of damaged scripts", |random| {
        let table = tables::to_replay(random);
        let records = scripts::any(&table, random);
        let script = damaged(&scripts::numbers_of(&records), random);
        play(table.spell(), script, random)
    }),
    ("replays on damaged tables", |random| {
        let table = tables::any(random);
        let bytes = damaged(&table.numbers(), random);
        let records = scripts::any(&table, random);
        play(bytes, scripts::spell(&records), random)
    }),
    ("hopeless rows", |random| {
        let (table, bytes) = hopeless::any(random);
        judge_or_play(&table, bytes, random)
    }),
    ("bad timers", |random| {
        let (table, bytes) = timers::any_bad(random);
        judge_or_play(&table, bytes, random)
    }),
    ("bad servers", |random| {
        let (table, bytes) = servers::any_bad(random);
        judge_or_play(&table, bytes, random)
    }),
    ("noise", |random| {
        let table = noise(random);
        let script = noise(random);
        if random.one_in(2) {
            judge(table, random)
        } else {
            play(table, script, random)
        }
    }),
];

pub type Exhaustive = (&'static str, fn(u64, u64) -> Box<dyn Iterator<Item = Case>>);

/// Each byte of a table or script damaged in turn, from a seed and for so many random ones. The answer buffer has its
/// right size and the log is long enough, so that every bad byte is answered.
pub const AT_EVERY_BYTE: [Exhaustive; 3] = [
    ("verdicts of tables damaged at every byte", |seed, count| {
        let quick = bad_bytes::tables(seed, count).filter(|table| tables::lengths_to_look_at(table) <= PATIENCE);
        Box::new(quick.map(|table| Case::verdict(table, vec![0x5a; 16])))
    }),
    ("replays on tables damaged at every byte", |seed, count| {
        Box::new(bad_bytes::tables(seed, count).map(|table| play_whole(table, vec![0, 0, 1])))
    }),
    ("replays of scripts damaged at every byte", |seed, count| {
        Box::new(bad_bytes::scripts(RECORDS, seed, count).map(|(table, script)| play_whole(table, script)))
    }),
];

fn play_whole(table: Vec<u8>, script: Vec<u8>) -> Case {
    let log = vec![0xa5; 10 * script.len()];
    Case::replay(table, script, log, vec![0x5a; 16])
}

/// Makes a verdict or a replay with the bytes of a table, which may be damaged.
fn judge_or_play(table: &tables::Table, bytes: Vec<u8>, random: &mut Random) -> Case {
    if random.one_in(2) {
        judge(bytes, random)
    } else {
        let records = scripts::any(table, random);
        play(bytes, scripts::spell(&records), random)
    }
}

/// Makes a verdict where a program that looks at every length ends soon, and otherwise a replay on the same table.
fn judge(table: Vec<u8>, random: &mut Random) -> Case {
    let patience = if random.one_in(200) { 1_100_000 } else { PATIENCE };
    if tables::lengths_to_look_at(&table) <= patience {
        Case::verdict(table, answer(random))
    } else {
        play(table, vec![0, 0, 1], random)
    }
}

fn play(table: Vec<u8>, script: Vec<u8>, random: &mut Random) -> Case {
    let log = log(&table, &script, random);
    Case::replay(table, script, log, answer(random))
}

/// Makes a log buffer that is just long enough, too short by a little or by a lot, or longer than it need be.
fn log(table: &[u8], script: &[u8], random: &mut Random) -> Vec<u8> {
    let outcome = table::read(table).and_then(|table| replay::replay(&table, script));
    let length = outcome.map_or_else(|_| random.index(60), |replayed| replayed.log().len());
    let size = match random.below(9) {
        0 | 1 => length,
        2 => length.saturating_sub(1),
        3 => length.saturating_sub(random.index(40)),
        4 => random.index(length + 1),
        5 => 0,
        6 => length + 1,
        7 => length + random.index(40),
        _ => 10 * script.len(),
    };
    random.bytes(size)
}

fn answer(random: &mut Random) -> Vec<u8> {
    let size = if random.one_in(50) { random.pick(&[0, 1, 8, 15, 17, 32]) } else { 16 };
    random.bytes(size)
}

fn damaged(numbers: &[u64], random: &mut Random) -> Vec<u8> {
    match random.below(17) {
        0..=2 => damage::lengthen(&tables::spell_numbers(numbers), random),
        3..=11 => damage::misspell_one(numbers, random),
        _ => damage::mutate(&tables::spell_numbers(numbers), random),
    }
}

fn noise(random: &mut Random) -> Vec<u8> {
    let most = random.pick(&[3, 20, 256]);
    let length = random.index(40);
    (0..length).map(|_| random.below(most) as u8).collect()
}
