//! Timers: good ones and bad ones for random tables, the named ones, and an account of those that were met.

use super::case::{hex, Call, Case, Outcome};
use super::damage::{lengthen, misspelled, mutate};
use super::random::Random;
use super::scripts::{self, Record};
use super::tables::{self, last_of_first_period, Row, Table, NO_TIMER};
use second::host::{FEASIBLE, IN_TIME, LATE, OVERLOADED};
use second::refusal::Reason;
use second::run::LAST_TICK;
use second::table::{self, MOST_P, MOST_ROWS};
use second::verdict::{verdict, Verdict};
use second::{numbers, replay};
use std::collections::BTreeSet;

/// A timer is s and p.
pub type Timer = [u64; 2];

/// What a comparison met of the timer.
#[derive(Clone, Copy, Debug, PartialEq, Eq, PartialOrd, Ord)]
pub enum Met {
    /// A table was refused with 3 for a p of 0.
    PIsZero,
    /// A table was refused with 3 for a p that is one above its most.
    POneTooHigh,
    /// A table was refused with 3 for a p out of its range, with an s that no p would allow.
    BothBad,
    /// A table was refused with 3 for an s that is its p.
    SIsP,
    /// A table was refused with 3 for an s above its p.
    SAboveP,
    /// A table was refused with 1 for its p, with an s that no p would allow.
    BadSBeforeMisspelledP,
    /// A table was refused with 1 since its bytes end right after s.
    CutAfterS,
    /// A table was refused with 2 at a place past 2, since its timer has more than two bytes.
    TooManyRowsAfterALongTimer,
    /// A table was refused with 5 that would be accepted with a p of 1.
    PeriodByP { s_is_0: bool },
    /// A table with s = 0 and p = 1 was accepted.
    NoTimer,
    /// A table with s = 0 and a higher p was accepted.
    NoTickOfSeveral,
    /// A table was accepted whose timer takes all ticks of several but one.
    AllTicksButOne,
    /// A table with the highest p was accepted.
    HighestP,
    /// A table with the highest p and the highest s was accepted.
    HighestSAndP,
    /// A table without rows was accepted whose timer takes ticks.
    NoRows,
    /// A table with rows was feasible, although its timer takes ticks.
    Feasible,
    /// A table was overloaded that would be feasible with an s of 0.
    OverloadedByTheTimer,
    /// The same, at a length that is no multiple of p.
    OverloadedInsideAP,
    /// The same, with a witness past H + the largest d.
    LateWitnessByTheTimer,
    /// Jobs were replayed in time, although the timer takes ticks.
    InTime,
    /// Jobs were replayed late that would be in time with an s of 0.
    LateByTheTimer,
    /// A tick was taken with a job pending.
    TakenWithAJobPending,
    /// A tick was taken with nothing pending, before the last job finished.
    TakenWithNothingPending,
    /// A job became late in a taken tick.
    LateInATakenTick,
    /// A job was released while the tick at the clock is taken.
    ReleasedAtATakenTick,
    /// A job was due between two ticks that are taken.
    DueInsideATakenStretch,
    /// The final ticks were stopped by the last tick of all, which was taken.
    StoppedAfterATakenTick,
    /// The final ticks were stopped where the tick at 2^40 would be taken.
    StoppedBeforeATakenTick,
}

/// What has to be met by a call.
pub fn wanted(call: Call) -> BTreeSet<Met> {
    let by_both = [
        Met::PIsZero,
        Met::POneTooHigh,
        Met::BothBad,
        Met::SIsP,
        Met::SAboveP,
        Met::BadSBeforeMisspelledP,
        Met::CutAfterS,
        Met::TooManyRowsAfterALongTimer,
        Met::PeriodByP { s_is_0: false },
        Met::PeriodByP { s_is_0: true },
        Met::NoTimer,
        Met::NoTickOfSeveral,
        Met::AllTicksButOne,
        Met::HighestP,
        Met::HighestSAndP,
        Met::NoRows,
    ];
    let by_verdict = [Met::Feasible, Met::OverloadedByTheTimer, Met::OverloadedInsideAP, Met::LateWitnessByTheTimer];
    let by_replay = [
        Met::InTime,
        Met::LateByTheTimer,
        Met::TakenWithAJobPending,
        Met::TakenWithNothingPending,
        Met::LateInATakenTick,
        Met::ReleasedAtATakenTick,
        Met::DueInsideATakenStretch,
        Met::StoppedAfterATakenTick,
        Met::StoppedBeforeATakenTick,
    ];
    call.of_both_and_its_own(&by_both, &by_verdict, &by_replay)
}

/// What a call met of these.
pub fn met(case: &Case, outcome: &Outcome) -> Vec<Met> {
    match table::read(&case.table) {
        Err(refusal) => of_refusal(&case.table, refusal.reason, refusal.place),
        Ok(table) => {
            let mut all = of_accepted(&table);
            all.extend(match outcome.status {
                FEASIBLE | OVERLOADED => of_verdict(&table),
                IN_TIME | LATE => of_log(&table, case, outcome),
                status if status == Reason::TimeTooLate.number() => of_stop(&table, case, outcome),
                _ => vec![],
            });
            all
        }
    }
}

fn of_refusal(bytes: &[u8], reason: Reason, place: usize) -> Vec<Met> {
    let Ok((s, start_of_p)) = numbers::read(bytes, 0) else { return vec![] };
    let p = numbers::read(bytes, start_of_p);
    let start_of_row_count = p.map_or(0, |(_, after)| after);
    let no_p_would_do = s >= MOST_P;
    match (reason, p) {
        (Reason::Misspelled, Err(_)) => {
            let cut = [Met::CutAfterS].into_iter().filter(|_| bytes.len() == start_of_p);
            cut.chain([Met::BadSBeforeMisspelledP].into_iter().filter(|_| no_p_would_do)).collect()
        }
        (Reason::ValueOutOfRange, Ok((p, _))) if place == start_of_p => {
            let by_p = match p {
                0 => vec![Met::PIsZero],
                _ if p == MOST_P + 1 => vec![Met::POneTooHigh],
                _ => vec![],
            };
            by_p.into_iter().chain([Met::BothBad].into_iter().filter(|_| no_p_would_do)).collect()
        }
        (Reason::ValueOutOfRange, Ok((p, _))) if place == 0 => vec![if s == p { Met::SIsP } else { Met::SAboveP }],
        (Reason::TooManyRows, _) if place > 2 && place == start_of_row_count => vec![Met::TooManyRowsAfterALongTimer],
        (Reason::PeriodTooLong, Ok((_, after))) if table::read(&[&[0, 1], &bytes[after..]].concat()).is_ok() => {
            vec![Met::PeriodByP { s_is_0: s == 0 }]
        }
        _ => vec![],
    }
}

fn of_accepted(table: &table::Table) -> Vec<Met> {
    let table::Timer { s, p } = table.timer;
    let kinds = [
        (Met::NoTimer, p == 1),
        (Met::NoTickOfSeveral, s == 0 && p > 1),
        (Met::AllTicksButOne, p > 1 && s == p - 1),
        (Met::HighestP, p == MOST_P),
        (Met::HighestSAndP, p == MOST_P && s == MOST_P - 1),
        (Met::NoRows, s > 0 && table.rows.is_empty()),
    ];
    those_that_hold(&kinds)
}

fn those_that_hold(kinds: &[(Met, bool)]) -> Vec<Met> {
    kinds.iter().filter(|(_, holds)| *holds).map(|(met, _)| *met).collect()
}

/// The same table with an s of 0.
fn without_ticks(table: &table::Table) -> table::Table {
    table::Table { timer: table::Timer { s: 0, p: table.timer.p }, ..table.clone() }
}

fn of_verdict(table: &table::Table) -> Vec<Met> {
    if table.timer.s == 0 {
        return vec![];
    }
    match verdict(table) {
        Verdict::Feasible => those_that_hold(&[(Met::Feasible, !table.rows.is_empty())]),
        Verdict::Overloaded { length, .. } if verdict(&without_ticks(table)) == Verdict::Feasible => {
            those_that_hold(&[
                (Met::OverloadedByTheTimer, true),
                (Met::OverloadedInsideAP, length % table.timer.p != 0),
                (Met::LateWitnessByTheTimer, length > last_of_first_period(table)),
            ])
        }
        Verdict::Overloaded { .. } => vec![],
    }
}

/// What a whole log shows. A job is late in the tick that takes the clock to its due time.
fn of_log(table: &table::Table, case: &Case, outcome: &Outcome) -> Vec<Met> {
    let timer = table.timer;
    let jobs = jobs_of(&outcome.log[..outcome.first()]);
    if timer.s == 0 || jobs.is_empty() {
        return vec![];
    }
    let taken_between = |start, end| timer.taken(end) - timer.taken(start);
    let mut spans: Vec<[u64; 2]> = jobs.iter().map(|&[_, _, release, _, finish]| [release, finish]).collect();
    spans.sort();
    let mut covered = 0;
    let mut nothing_pending = 0;
    for [release, finish] in spans {
        if release > covered {
            nothing_pending += taken_between(covered, release);
        }
        covered = covered.max(finish);
    }
    let any = |holds: &dyn Fn(u64, u64, u64) -> bool| {
        jobs.iter().any(|&[_, _, release, due, finish]| holds(release, due, finish))
    };
    let in_time_without = || replay::replay(&without_ticks(table), &case.script).is_ok_and(|done| done.late == 0);
    those_that_hold(&[
        (Met::InTime, outcome.status == IN_TIME),
        (Met::LateByTheTimer, outcome.status == LATE && in_time_without()),
        (Met::TakenWithAJobPending, any(&|release, _, finish| taken_between(release, finish) > 0)),
        (Met::TakenWithNothingPending, nothing_pending > 0),
        (Met::LateInATakenTick, any(&|_, due, finish| finish > due && timer.takes(due - 1))),
        (Met::ReleasedAtATakenTick, any(&|release, _, _| timer.takes(release))),
        (Met::DueInsideATakenStretch, any(&|_, due, _| timer.takes(due - 1) && timer.takes(due))),
    ])
}

/// The serial, row number, release, due time and finish of each job in a whole log.
pub fn jobs_of(log: &[u8]) -> Vec<[u64; 5]> {
    let mut list = vec![];
    let mut place = 0;
    while place < log.len() {
        let (number, after) =
            numbers::read(log, place).unwrap_or_else(|_| panic!("no number at {place} of {}", hex(log)));
        list.push(number);
        place = after;
    }
    list.chunks(5).map(|job| job.try_into().expect("a log has five numbers for each job")).collect()
}

fn of_stop(table: &table::Table, case: &Case, outcome: &Outcome) -> Vec<Met> {
    let in_the_final_ticks = outcome.first() == case.script.len();
    those_that_hold(&[
        (Met::StoppedAfterATakenTick, in_the_final_ticks && table.timer.takes(LAST_TICK - 1)),
        (Met::StoppedBeforeATakenTick, in_the_final_ticks && table.timer.takes(LAST_TICK)),
    ])
}

/// Makes a timer of any kind for rows. About half have s = 0 and p = 1, as if there were none, and some few are refused.
pub fn any(rows: &[Row], random: &mut Random) -> Timer {
    match random.below(24) {
        0..=10 => NO_TIMER,
        11 | 12 => [0, random.pick(&[2, 3, 4, 6, 12, 60, 128, 1_024, MOST_P - 1, MOST_P])],
        13..=15 => near_the_rows(rows, random),
        16..=18 => short(random),
        19 | 20 => all_ticks_but_one(random),
        21 => long(random),
        22 => {
            let p = random.within(1, MOST_P);
            [random.below(p), p]
        }
        _ => bad(random),
    }
}

/// Makes a timer that takes ticks, with a p that the rows' y have to do with.
fn near_the_rows(rows: &[Row], random: &mut Random) -> Timer {
    let y = if rows.is_empty() { 8 } else { random.pick(rows)[1] };
    let p = (y * random.within(1, 3)).div_ceil(random.within(1, 3)).clamp(2, MOST_P);
    let most_s = p.div_ceil(random.pick(&[2, 4, 8])).min(p - 1);
    [random.within(1, most_s), p]
}

/// Makes a timer that takes a few ticks of a few.
fn short(random: &mut Random) -> Timer {
    let p = random.within(2, 16);
    [random.within(1, p.div_ceil(2)).min(p - 1), p]
}

fn all_ticks_but_one(random: &mut Random) -> Timer {
    let p = random.within(2, 6);
    [p - 1, p]
}

/// Makes a timer whose p is about the highest.
fn long(random: &mut Random) -> Timer {
    let p = MOST_P - random.pick(&[0, 0, 0, 1, 2, 3]);
    [random.pick(&[0, 1, 2, p / 2, p - 2, p - 1]), p]
}

/// Makes a timer that takes ticks, where the period of the rows allows for one. Most leave enough ticks for a replay of
/// many jobs.
pub fn to_replay(rows: &[Row], random: &mut Random) -> Timer {
    let timer = match random.below(20) {
        0..=4 => near_the_rows(rows, random),
        5..=12 => short(random),
        13..=17 => all_ticks_but_one(random),
        18 => {
            let [s, p] = long(random);
            [s.max(1), p]
        }
        _ => [random.within(1, 12), random.within(13, 24)],
    };
    fitting(timer, rows)
}

/// The timer, or where its p makes the period of the rows too long, one with a small p, or none.
fn fitting([s, p]: Timer, rows: &[Row]) -> Timer {
    let too_long = |p| {
        let refusal = table::read(&tables::spell_with([0, p], rows)).err();
        refusal.is_some_and(|refusal| refusal.reason == Reason::PeriodTooLong)
    };
    match [p, 4, 2].into_iter().find(|&p| !too_long(p)) {
        Some(fits) if fits == p => [s, p],
        Some(fits) => [1, fits],
        None => NO_TIMER,
    }
}

/// Makes a timer that is refused, or nearly: p or s or both on the wrong side of their limits. Some have low bits that
/// would be right.
pub fn bad(random: &mut Random) -> Timer {
    let far = random.pick(&[1 << 14, 1 << 32, (1 << 32) + 1, (1 << 32) + 4, 1 << 41, numbers::LARGEST]);
    let bad_p = random.pick(&[0, 0, MOST_P + 1, MOST_P + 1, far]);
    let bad_s = random.pick(&[MOST_P, MOST_P + 1, 5_000, far]);
    let p = random.pick(&[1, 1, 2, 4, 127, 128, MOST_P - 1, MOST_P]);
    match random.below(7) {
        0 => [0, bad_p],
        1 => [random.below(MOST_P), bad_p],
        2 => [bad_s, bad_p],
        3 => [p, p],
        4 => [p + 1, p],
        5 => [bad_s, p],
        _ => [p - 1, p],
    }
}

/// Makes a table whose timer is refused, or nearly. About half of these have something else that is refused, too.
pub fn any_bad(random: &mut Random) -> (Table, Vec<u8>) {
    let mut table = tables::to_replay(random);
    table.timer = bad(random);
    let [s, p] = table.timer.map(|number| numbers::spell(number).unwrap());
    let rest = tables::spell_all(NO_TIMER, &table.rows, &table.servers)[2..].to_vec();
    let bytes = match random.below(12) {
        0 | 1 => [s, misspelled(&p, random), rest].concat(),
        2 => [misspelled(&s, random), p, rest].concat(),
        3 => s,
        4 => [s, p].concat(),
        5 => lengthen(&table.spell(), random),
        6 => mutate(&table.spell(), random),
        7 => [s, p, numbers::spell(random.pick(&[MOST_ROWS + 1, 1 << 32, 1 << 41])).unwrap()].concat(),
        _ => table.spell(),
    };
    (table, bytes)
}

/// The named tables: every timer example, and s and p on either side of their limits, alone and beside every other
/// refusal.
pub fn edge_tables() -> Vec<Vec<u8>> {
    let v3 = [[1, 4, 4, 2], [1, 6, 6, 3]];
    let mut tables = vec![];
    let mut with = |timer: Timer, rows: &[Row]| tables.push(tables::spell_with(timer, rows));
    // These are T1 to T7.
    with([1, 4], &[]);
    with([1, 4], &[[1, 4, 4, 3]]);
    with([0, 12], &v3);
    with([1, 12], &v3);
    with([3, 4], &[[1, 4, 3, 1]]);
    with([2, 5], &[[1, 10, 7, 4]]);
    with([1, 2], &[[1, 2, 10, 2]]);
    for p in [0, 1, 2, 3, 127, 128, MOST_P - 1, MOST_P, MOST_P + 1, 1 << 14, 1 << 32, (1 << 32) + 4, 1 << 41] {
        for s in [0, 1, 2, 126, 127, 128, MOST_P - 2, MOST_P - 1, MOST_P, MOST_P + 1, 1 << 32, (1 << 32) + 1, 1 << 41] {
            with([s, p], &[]);
            with([s, p], &[[1, 1, 2, 1]]);
            with([s, p], &[[1, 4, 4, 5]]);
        }
        with([p.saturating_sub(1), p], &[[1, 1, 1, 0]]);
        with([p, p], &v3);
    }
    // H is at its longest or just above it by p alone, with s of 0 too, and p may be shared with a row.
    for s in [0, 1, 900] {
        for [p, y] in [[1_023, 1_025], [1_025, 1_023], [919, 1_141], [1_141, 919], [MOST_P, 255], [MOST_P, 257]] {
            with([s, p], &[[1, y, y, 1]]);
            with([s, p], &[[1, y, y, 1], [1, p, p, 1]]);
            with([s, p], &[[1, y, 4, 5]]);
        }
    }
    // A timer and one row that together take the whole processor, or one unit more, due as early as can be or earlier.
    for [s, p] in [[1, 2], [1, 3], [2, 3], [1, 8], [7, 8], [100, 128], [MOST_P - 1, MOST_P]] {
        for c in [p - s, p - s + 1] {
            for d in [p - 1, p, p + 1, 2 * p - 1, 2 * p, 3 * p] {
                with([s, p], &[[1, p, d, c]]);
            }
        }
    }
    // These have witnesses far past H + the largest d, by the timer alone.
    with([1, 2], &[[1, 2, 1_000, 2]]);
    with([1, 41], &[[1, 30, 1_000, 30]]);
    with([1, 256], &[[1, 255, 4_000, 255]]);
    with([14, 15], &[[1, 15, 300, 2]]);
    // The limit of rows, after a timer of two, three and four bytes.
    for timer in [[0, 1], [1, 64], [1, 128], [128, 256]] {
        for count in [MOST_ROWS - 1, MOST_ROWS, MOST_ROWS + 1] {
            with(timer, &vec![[1, 128, 128, 1]; count as usize]);
        }
    }

    for s in [0, 1, MOST_P, 1 << 41] {
        let s = numbers::spell(s).unwrap();
        let misspellings = [&[0x80, 0x00][..], &[0x81, 0x80, 0x00, 0], &[0xff; 6], &[0x80; 5], &[0x81], &[]];
        tables.extend(misspellings.map(|p| [&s[..], p].concat()));
    }
    for timer in [[0, 0], [1, 1], [MOST_P, 1], [0, MOST_P + 1], [128, MOST_P], [127, 128]] {
        let start = tables::spell_numbers(&timer);
        let rests = [&[][..], &[0x80, 0x00], &[MOST_ROWS as u8 + 1], &[1], &[1, 0], &[1, 1, 4, 4, 5], &[0], &[0, 7]];
        tables.extend(rests.map(|rest| [&start[..], rest].concat()));
        tables.extend([&[0, 0, 7][..], &[0, 9], &[0, 1, 4, 3]].map(|rest| [&start[..], rest].concat()));
    }
    tables
}

/// The named replays: R2, jobs released and due inside taken stretches, in time and late, and the end of time.
pub fn edge_scripts() -> Vec<(Vec<u8>, Vec<u8>)> {
    let mut list = vec![];
    let mut with = |timer: Timer, rows: &[Row], records: &[Record]| {
        list.push((tables::spell_with(timer, rows), scripts::spell(records)));
    };
    with([1, 4], &[[1, 8, 6, 2], [1, 8, 8, 3]], &[[0, 0, 2], [0, 1, 3]]);
    for timer in [[0, 8], [1, 8], [3, 8], [7, 8], [1, 2], [2, 3]] {
        for gap in 0..=8 {
            for d in [1, 2, 3, 8, 10] {
                let c = 3.min(d);
                with(timer, &[[1, 4, d, c], [2, 1, d, 1]], &[[gap, 0, c], [0, 1, 1], [1, 0, 1], [8 - gap, 1, 1]]);
            }
        }
    }
    // The one free tick of a long p, after a long time without any job.
    with([MOST_P - 1, MOST_P], &[[1, 4_096, 4_096, 1]], &[[0, 0, 1], [4_096, 0, 1], [(1 << 33) + 4_095, 0, 1]]);
    with([MOST_P - 1, MOST_P], &[[1, 4_096, 4_095, 1]], &[[0, 0, 1], [4_096, 0, 1], [(1 << 33) + 4_095, 0, 1]]);
    // Jobs near 2^40, which is one more than a multiple of 3 and sixteen more than one of 4095.
    for timer in [[1, 2], [1, 3], [2, 3], [1, 4], [3, 4], [1, 5], [14, 4_095], [15, 4_095], [16, 4_095], [17, 4_095]] {
        for from_the_end in [1, 2, 3, 4] {
            let first = LAST_TICK - from_the_end;
            with(timer, &[[2, 1, 1, 1]], &[[first, 0, 1], [0, 0, 1]]);
            with(timer, &[[2, 1, 2, 2]], &[[first, 0, 1]]);
            with(timer, &[[2, 1, 2, 2]], &[[first, 0, 2]]);
            with(timer, &[[2, 1, 1, 1]], &[[0, 0, 1], [first, 0, 1]]);
        }
        with(timer, &[[2, 1, 2, 2]], &[[LAST_TICK, 0, 1]]);
        with(timer, &[[2, 1, 2, 2]], &[[LAST_TICK + 1, 0, 1]]);
        with(timer, &[], &[[LAST_TICK, 0, 1]]);
    }
    list
}
