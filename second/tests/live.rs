//! Compares the four calls on a live run. After every call the status, the whole answer buffer and the whole memory of the
//! run are held to each other, byte for byte. The run's memory is also changed between calls, so that runs are met that
//! are not sound, and sound ones that no calls have made.

mod support;

use second::live::{FINISHED, RAN, TAKEN};
use second::memory::{self, BYTES};
use second::run::{LAST_TICK, MOST_ENDED, MOST_PENDING};
use second::sound::Held;
use second::table::{self, MOST_ROWS, MOST_SERVERS, MOST_X};
use second::trace::Call::{self as OnRun, End, Release, Tick};
use second::verdict::{verdict, Verdict};
use std::collections::BTreeSet;
use support::live::{self, Call, Live, Met, Said};
use support::random::Random;
use support::tables::{self, Table};
use support::trace::{good_release, random_release};
use support::words::{self, Field, Word};
use support::{bad_bytes, made, scripts, settings};

/// This many random sequences of calls are made. With fewer, most numbers of a run are changed to one value each, and not
/// to all that they can be changed to.
const SEQUENCES: u64 = 1_000;
/// One in so many of the tables that are damaged at every byte is to be started.
const DAMAGED_TABLES: usize = 11;
/// One sequence in so many takes about all places before it goes on.
const FILLED: u64 = 12;
/// One answer buffer in so many is of a wrong length.
const WRONG_LENGTH: u64 = 15;
/// The promise of feasible tables is held to runs on tables with a period of at most so much.
const PATIENCE: u64 = 10_000;

const CLOCK: usize = 276;
const ENDED: usize = 5_983;

fn main() {
    let seed = settings::number("JYRMEKKO_SEED", 1);
    let sequences = settings::number("JYRMEKKO_SEQUENCES", SEQUENCES);
    let mut compared = Compared::default();
    compared.family("with their answers written out", |met| written_out(seed, met));
    compared.family("in random sequences", |met| {
        let mut memory = live::zeros();
        for index in 0..sequences {
            memory = sequence(memory, seed, index, met);
        }
    });
    compared.family("to start on damaged tables", |met| starts(seed, met));
    compared.family("on sound runs that no calls have made", |met| {
        (0..sequences).for_each(|index| on_a_made_run(seed, index, met));
    });
    let all = compared.family("to make a run with all in use", |met| run_with_all_in_use(seed, met));
    let little = compared.family("to make a run with little in use", |met| run_with_little_in_use(seed, met));
    let all_values = sequences >= SEQUENCES;
    compared.family("with all in use and each number changed", |met| changed(&all, all_values, seed, met));
    compared.family("with little in use and each number changed", |met| changed(&little, all_values, seed, met));

    let Compared { families, met } = compared;
    println!("{} calls on live runs with seed {seed}", met.total());
    let statuses: Vec<String> =
        met.statuses.iter().map(|((call, status), count)| format!("{call} {status}: {count}")).collect();
    println!("{}", statuses.join(", "));
    let changes: Vec<String> = met.changes.iter().map(|(change, count)| format!("{change:?}: {count}")).collect();
    println!("numbers changed, in use and sound afterwards: {}", changes.join(", "));
    println!("units given on feasible tables, with nobody late: {}", met.promised);
    check(&met);
    println!("{} passed, 0 failed", families + 1);
}

#[derive(Default)]
struct Compared {
    /// This many families of calls went through without a difference.
    families: u64,
    met: Met,
}

impl Compared {
    fn family<T>(&mut self, name: &str, compare: impl FnOnce(&mut Met) -> T) -> T {
        let before = self.met.total();
        let made = compare(&mut self.met);
        println!("{:>9} calls, {name}", self.met.total() - before);
        self.families += 1;
        made
    }
}

/// Everything has to be met that can be, and nothing else.
fn check(met: &Met) {
    let statuses: BTreeSet<_> = met.statuses.keys().copied().collect();
    assert_eq!(statuses, live::statuses(), "the statuses of each call");
    for call in ["run_start", "run_release", "run_tick", "run_end"] {
        for length in [0, 15, 17] {
            for sound in [false, true] {
                let wrong = (call, length, sound);
                assert!(met.lengths.contains(&wrong), "no answer buffer was refused with {wrong:?}");
            }
        }
    }
    assert!(met.promised > 0, "no job of a feasible table had a unit");
    assert_eq!(met.words, (0..memory::WORDS).collect(), "numbers that were changed");
    let mut wanted = BTreeSet::new();
    for field in words::FIELDS {
        wanted.extend([(field, true, true), (field, true, false)]);
        if field.is_of_many() {
            wanted.insert((field, false, true));
        }
    }
    let changes: BTreeSet<_> = met.changes.keys().copied().collect();
    assert_eq!(changes, wanted, "changes of a number, in use or not, with a sound run afterwards or not");
    for field in words::FIELDS {
        let Some(limit) = field.limit() else { continue };
        // With as many as the limit, a count needs that many which are sound. Those are met without a change.
        let is_count = matches!(field, Field::RowCount | Field::ServerCount | Field::PendingCount);
        assert!(is_count || met.limits.contains(&(field, limit, true)), "no sound run with {field:?} {limit}");
        let above = limit + 1;
        assert!(met.limits.contains(&(field, above, false)), "no run with {field:?} {above}, which is not sound");
        assert!(!met.limits.contains(&(field, above, true)), "a sound run with {field:?} {above}");
    }
}

fn answer_length(random: &mut Random) -> usize {
    if random.one_in(WRONG_LENGTH) {
        random.pick(&[0, 0, 15, 15, 17, 17, 1, 8, 24, 32])
    } else {
        16
    }
}

/// Returns the rows and servers in use as a table, whose values may be out of range.
fn table_of(held: &Held) -> Table {
    let rows = held.rows.iter().take(held.row_count.min(MOST_ROWS) as usize);
    let servers = held.servers.iter().take(held.server_count.min(MOST_SERVERS) as usize);
    Table {
        timer: [held.timer.s, held.timer.p],
        rows: rows.map(|row| [row.x, row.y, row.d, row.c]).collect(),
        servers: servers.map(|server| [server.a, server.b]).collect(),
    }
}

/// Ends a job: mostly one that is pending, and otherwise one that never was or is no more, or whose serial stands in a
/// place that is not in use.
fn random_end(held: &Held, random: &mut Random) -> OnRun {
    let pending = held.pending_count.min(MOST_PENDING as u64) as usize;
    let any = random.below(held.next_serial.max(1));
    let serial = match random.below(10) {
        0 => random.pick(&[held.next_serial, held.next_serial.wrapping_add(1), any.wrapping_add(1 << 32), u64::MAX]),
        1 => held.pending[random.index(MOST_PENDING)].serial,
        2.. if pending > 0 => held.pending[random.index(pending)].serial,
        _ => any,
    };
    End { serial }
}

fn random_call(held: &Held, random: &mut Random) -> OnRun {
    match random.below(6) {
        0 | 1 => Tick,
        2 => random_end(held, random),
        3 => random_release(&table_of(held), random),
        _ => good_release(&table_of(held), random),
    }
}

/// Makes a memory in which any bytes stand, small numbers, zeros, a run, or what the last sequence left.
fn memory_before(last: Vec<u8>, random: &mut Random) -> Vec<u8> {
    match random.below(8) {
        0 => live::zeros(),
        1 => random.bytes(BYTES),
        2 => (0..memory::WORDS).flat_map(|_| random.below(4).to_le_bytes()).collect(),
        3 => vec![random.pick(&[0x01, 0xff]); BYTES],
        4 => memory::write(made::sound(random)),
        _ => last,
    }
}

/// A live run as a random sequence goes on.
struct Played<'a> {
    live: Live,
    random: Random,
    met: &'a mut Met,
    /// The run was started, and nobody has written into its memory since.
    untouched: bool,
    /// Its table is feasible, too.
    feasible: bool,
}

impl Played<'_> {
    /// Makes a call, and sees to it that a run nobody else has written to is never refused as not sound, and that no job
    /// of a feasible table becomes late in it.
    fn call(&mut self, call: Call) -> Said {
        let length = answer_length(&mut self.random);
        let table = if let Call::Start(table) = &call { Some(table.clone()) } else { None };
        let said = self.live.call(call, length, &mut self.random, self.met);
        match table {
            Some(table) if length == 16 => {
                let read = table::read(&table).ok().filter(|table| table.period <= PATIENCE);
                self.feasible = read.is_some_and(|table| verdict(&table) == Verdict::Feasible);
                self.untouched = true;
            }
            _ if self.untouched => {
                let (status, _, late) = said;
                assert!(!live::is_not_sound(status), "WRONG by the rules: {said:?}");
                if self.feasible && [RAN, FINISHED, TAKEN].contains(&status) {
                    assert_eq!(late, 0, "WRONG by the rules: {said:?}");
                    self.met.promised += u64::from(status != TAKEN);
                }
            }
            _ => {}
        }
        said
    }

    /// Makes a call that is made for what the run holds.
    fn call_made(&mut self, make: fn(&Held, &mut Random) -> OnRun) -> Said {
        let call = make(&self.live.held(), &mut self.random);
        self.call(Call::OnRun(call))
    }

    fn call_any(&mut self) -> Said {
        self.call_made(random_call)
    }

    /// Lets somebody else write a number into the run's memory. Where the run is not sound then, the number is put back
    /// after some calls.
    fn change(&mut self) {
        self.untouched = false;
        let held = self.live.held();
        if !held.is_sound() {
            return;
        }
        let (place, value) = match self.random.below(5) {
            0 => (CLOCK, LAST_TICK - self.random.below(30)),
            1 => (ENDED, MOST_ENDED - self.random.below(3)),
            _ => {
                let place = words::any(&mut self.random);
                let values = words::ALL[place].other_values(&held, self.live.word(place), &mut self.random);
                (place, self.random.pick(&values))
            }
        };
        let now = self.live.word(place);
        let sound = self.live.change(place, value, self.met);
        for _ in 0..self.random.within(1, 3) {
            let (status, ..) = self.call_any();
            assert!(status == 13 || live::is_not_sound(status) != sound);
        }
        if !sound {
            self.live.write(place, now);
        }
    }
}

/// Starts a run over what the last sequence left, and makes calls by turns of random length. Returns what is left.
fn sequence(last: Vec<u8>, seed: u64, index: u64, met: &mut Met) -> Vec<u8> {
    let mut random = Random::of(seed, index);
    let memory = memory_before(last, &mut random);
    let live = Live::on(&memory, format!("sequence {index}, seed {seed}"), &mut random);
    let mut played = Played { live, random, met, untouched: false, feasible: false };
    for _ in 0..played.random.below(4) {
        played.call_any();
    }
    for _ in 0..played.random.within(1, 2) {
        let (_, table) = tables::to_start(&mut played.random);
        played.call(Call::Start(table));
    }
    if played.random.one_in(FILLED) {
        for _ in 0..scripts::near_the_last_place(&mut played.random) {
            played.call_made(|held, random| good_release(&table_of(held), random));
        }
    }
    for _ in 0..played.random.within(1, 8) {
        let turn = played.random.below(6);
        for _ in 0..played.random.pick(&[1, 3, 10, 20]) {
            match turn {
                0 => drop(played.call(Call::OnRun(Tick))),
                1 => drop(played.call_made(|held, random| random_release(&table_of(held), random))),
                2 => drop(played.call_made(random_end)),
                3 if played.random.one_in(2) => played.change(),
                _ => drop(played.call_any()),
            }
        }
    }
    played.live.memory().to_vec()
}

/// Starts one run over another on tables that are damaged at every byte, and makes a call on each.
fn starts(seed: u64, met: &mut Met) {
    let mut random = Random::of(seed, 1 << 45);
    let mut live = Live::on(&random.bytes(BYTES), format!("starts on damaged tables, seed {seed}"), &mut random);
    for table in bad_bytes::tables(seed, 2).step_by(DAMAGED_TABLES) {
        live.call(Call::Start(table), 16, &mut random, met);
        let call = random.pick(&[Release { row: 0, cost: 1 }, Tick, End { serial: 0 }]);
        live.call(Call::OnRun(call), 16, &mut random, met);
    }
}

/// Plays on a sound run that was written into the memory, and changes it now and then.
fn on_a_made_run(seed: u64, index: u64, met: &mut Met) {
    let mut random = Random::of(seed, index | 1 << 40);
    let memory = memory::write(made::sound(&mut random));
    let live = Live::on(&memory, format!("made run {index}, seed {seed}"), &mut random);
    let mut played = Played { live, random, met, untouched: false, feasible: false };
    let (status, ..) = played.call_any();
    assert!(!live::is_not_sound(status), "WRONG by the rules: made run {index} is not sound");
    for _ in 0..played.random.within(2, 15) {
        if played.random.one_in(5) {
            played.change();
        } else {
            played.call_any();
        }
    }
}

/// Makes a run in which everything is in use but one place. Of each row 64 due times are kept.
fn run_with_all_in_use(seed: u64, met: &mut Met) -> Vec<u8> {
    let mut random = Random::of(seed, 1 << 41);
    let rows: Vec<_> = (0..MOST_ROWS).map(|row| [MOST_X, 1 << (row % 5), 5_000 + row, 2 + row]).collect();
    let servers: Vec<_> = (0..MOST_SERVERS).map(|server| [1 + server, 16]).collect();
    let numbers = MOST_ROWS + MOST_SERVERS;
    let mut live = Live::on(&live::zeros(), format!("a run with all in use, seed {seed}"), &mut random);
    let mut call = |call: Call| live.call(call, 16, &mut random, met);
    assert_eq!(call(Call::Start(tables::spell_all([1, 4], &rows, &servers))), (33, 0, 0));
    for row in 0..numbers {
        for _ in 0..MOST_X {
            let (_, serial, _) = call(Call::OnRun(Release { row, cost: 1 }));
            assert_eq!(call(Call::OnRun(End { serial })), (39, 0, 0));
        }
    }
    for job in 0.. {
        if job % 10 == 0 {
            call(Call::OnRun(Tick));
        }
        if call(Call::OnRun(Release { row: job * 7 % numbers, cost: 2 })) == (8, 0, 0) {
            break;
        }
    }
    // The first finish frees one place.
    while !matches!(call(Call::OnRun(Tick)), (FINISHED, ..)) {}
    live.memory().to_vec()
}

/// Makes a run with two rows and two servers. Of the last server no job is pending.
fn run_with_little_in_use(seed: u64, met: &mut Met) -> Vec<u8> {
    let mut random = Random::of(seed, 1 << 42);
    let mut live = Live::on(&live::zeros(), format!("a run with little in use, seed {seed}"), &mut random);
    let table = tables::spell_all([1, 4], &[[64, 4, 16_000, 3], [1, 5, 9, 5]], &[[1, 4_096], [3, 4]]);
    assert_eq!(live.call(Call::Start(table), 16, &mut random, met), (33, 0, 0));
    let jobs = [(0, 3, 16_000), (0, 3, 16_000), (0, 2, 16_000), (1, 5, 9), (2, 4, 16_384)];
    for (serial, (row, cost, due)) in jobs.into_iter().enumerate() {
        let said = live.call(Call::OnRun(Release { row, cost }), 16, &mut random, met);
        assert_eq!(said, (34, serial as u64, due));
    }
    for _ in 0..5 {
        live.call(Call::OnRun(Tick), 16, &mut random, met);
    }
    live.memory().to_vec()
}

/// Changes each number in turn, and makes a release, a tick and an end each time. A number that is not in use gets only
/// few of the values that it can be changed to.
fn changed(memory: &[u8], all_values: bool, seed: u64, met: &mut Met) {
    let mut random = Random::of(seed, 1 << 43);
    let mut live = Live::on(memory, format!("a run with a number changed, seed {seed}"), &mut random);
    let held = live.held();
    for (place, &word) in words::ALL.iter().enumerate() {
        let mut values = word.other_values(&held, live.word(place), &mut random);
        let is_among_the_first = word.of < 2 && word.at < 2;
        if !all_values && !is_among_the_first {
            values = vec![random.pick(&values)];
        } else if !word.is_in_use(&held) {
            values = (0..3).map(|_| random.pick(&values)).collect();
        }
        for value in values {
            let sound = live.change(place, value, met);
            for call in calls_on(word, &held, &mut random) {
                let (status, ..) = live.call(Call::OnRun(call), 16, &mut random, met);
                assert!(live::is_not_sound(status) != sound);
            }
            live.restore();
        }
    }
}

/// A release of the row or server that a number is of, an end of the job, and a tick, in any order.
fn calls_on(word: Word, held: &Held, random: &mut Random) -> Vec<OnRun> {
    let table = table_of(held);
    let row = match word.field {
        Field::X | Field::Y | Field::D | Field::C | Field::KeptDue | Field::KeptCount => word.of as u64,
        Field::A | Field::B | Field::Last => held.row_count + word.of as u64,
        _ => random.below(table.row_numbers()),
    };
    let release = Release { row, cost: random.within(1, table.most_cost(row).min(9)) };
    let is_of_job = word.field >= Field::Serial && word.field <= Field::Left;
    let end = if is_of_job { End { serial: held.pending[word.of].serial } } else { random_end(held, random) };
    let mut calls = vec![release, end, Tick];
    calls.swap(0, random.index(3));
    calls.swap(1, 1 + random.index(2));
    calls
}

/// Sequences whose answers are written out here, so that both programs are held to them.
fn written_out(seed: u64, met: &mut Met) {
    let release = |row, cost| Call::OnRun(Release { row, cost });
    let end = |serial| Call::OnRun(End { serial });
    let tick = Call::OnRun(Tick);
    let start = |table: &[u8]| Call::Start(table.to_vec());
    // The timer takes one tick of four. The row is (2, 4, 3, 3), and the server has one unit in four ticks.
    let table = [1, 4, 1, 2, 4, 3, 3, 1, 1, 4];
    let steps = [
        (release(0, 1), (11, 0, 0)),
        (tick.clone(), (11, 0, 0)),
        (end(0), (11, 0, 0)),
        (start(&table), (33, 0, 0)),
        (tick.clone(), (38, 0, 0)),
        (tick.clone(), (35, 0, 0)),
        (release(0, 2), (34, 0, 5)),
        (release(0, 3), (34, 1, 5)),
        (release(1, 2), (34, 2, 10)),
        (release(2, 1), (6, 0, 0)),
        (release(1 << 32, 1), (6, 0, 0)),
        (release(0, 4), (7, 0, 0)),
        (release(1, 4_097), (7, 0, 0)),
        (tick.clone(), (36, 0, 0)),
        (tick.clone(), (37, 0, 0)),
        (tick.clone(), (38, 0, 1)),
        (tick.clone(), (36, 1, 0)),
        (end(1), (39, 1, 0)),
        (end(1), (17, 0, 0)),
        (tick.clone(), (36, 2, 0)),
        (tick.clone(), (37, 2, 0)),
        (tick.clone(), (38, 0, 0)),
        (start(&[0, 1, 1, 1, 0x80, 0x00]), (1, 5, 0)),
        (end(0), (17, 0, 0)),
        (release(0, 1), (6, 0, 0)),
        (tick.clone(), (35, 0, 0)),
        (start(&[]), (1, 0, 0)),
        (start(&[1, 2, 65]), (2, 2, 0)),
        (start(&[1, 2, 0, 2, 1, 2, 4, 3]), (3, 7, 0)),
        (start(&[0, 1, 0, 0, 0]), (4, 4, 0)),
        (start(&tables::spell_with([0, 919], &[[1, 1_141, 1, 1]])), (5, 10, 0)),
        (start(&[0, 1, 1, 1, 4, 4, 5]), (16, 6, 0)),
        // Two of three jobs that are due at 1 are late.
        (start(&[0, 1, 1, 3, 9, 1, 1, 0]), (33, 0, 0)),
        (release(0, 1), (34, 0, 1)),
        (release(0, 1), (34, 1, 1)),
        (release(0, 1), (34, 2, 1)),
        (tick.clone(), (37, 0, 2)),
        (tick, (37, 1, 0)),
    ];
    let mut random = Random::of(seed, 1 << 44);
    let mut live = Live::on(&live::zeros(), format!("the calls that are written out, seed {seed}"), &mut random);
    for (index, (call, wanted)) in steps.into_iter().enumerate() {
        for length in [0, 15, 17] {
            assert_eq!(live.call(call.clone(), length, &mut random, met), (13, 0, 0));
        }
        assert_eq!(live.call(call, 16, &mut random, met), wanted, "step {index}");
    }
}
