//! Servers: good ones and bad ones for random tables, the named ones, and an account of those that were met.

use super::case::{Call, Case, Outcome};
use super::damage::{lengthen, misspelled, mutate};
use super::random::Random;
use super::scripts::{self, Record};
use super::tables::{self, due_near, last_of_first_period, read_numbers, Row, Table, LONG_PERIODS, NO_TIMER};
use super::tally::most_pending;
use super::timers::{jobs_of, Timer};
use second::host::{FEASIBLE, IN_TIME, LATE, OVERLOADED};
use second::numbers;
use second::refusal::Reason;
use second::run::{LAST_TICK, MOST_PENDING};
use second::table::{self, MOST_A, MOST_B, MOST_ODD_COST, MOST_P, MOST_ROWS, MOST_SERVERS};
use second::verdict::{verdict, Verdict};
use std::collections::BTreeSet;

/// A server is a and b.
pub type Server = [u64; 2];

/// What a comparison met of the servers.
#[derive(Clone, Copy, Debug, PartialEq, Eq, PartialOrd, Ord)]
pub enum Met {
    /// A table was refused with 1 since its bytes end right after the last row.
    CountMissing,
    /// A table was refused with 3 for an a of 0.
    AIsZero,
    /// A table was refused with 3 for an a that is one above its most.
    AOneTooHigh,
    /// A table was refused with 3 for an a, with a b after it that can't be read.
    BadABeforeMisspelledB,
    /// A table was refused with 3 for a b of 0.
    BIsZero,
    /// A table was refused with 3 for a b that is one below its a.
    BOneBelowA,
    /// A table was refused with 3 for a b that is one above its most.
    BOneTooHigh,
    /// A table was refused with 3 in the server of this number.
    InServer(u64),
    /// A table with servers was refused with 4.
    ExtraBytes,
    /// A table was refused with 5 that would be accepted without its servers.
    PeriodByB,
    /// A table was refused with 5 that would be accepted with each server in lowest terms.
    PeriodByUnreducedB,
    /// A table was accepted with a server whose a is its b.
    AIsB,
    /// A table was accepted with a server whose a and b are the highest.
    HighestAAndB,
    /// A table was accepted with the smallest server of all.
    SmallestShare,
    /// A table was accepted with a server that is not in lowest terms.
    Reducible,
    /// A table without rows was accepted that has servers.
    NoRows,
    /// A table with as many rows and as many servers as the limits was accepted.
    MostRowsAndServers,
    /// A table with rows was feasible, although it has servers.
    Feasible,
    /// A table with servers was feasible, although it takes the whole processor.
    FeasibleAndFull,
    /// A table was overloaded that would be feasible without its servers.
    OverloadedByServers,
    /// The same, at a length at which no row's demand grows.
    OverloadedOffTheSteps,
    /// A table without rows and taken ticks was overloaded.
    OverloadedByServersAlone,
    /// A table with a witness past H + the largest d would be feasible without its servers.
    LateWitnessByServers,
    /// A table with servers would be overloaded if their demand were rounded up.
    FeasibleByRoundingDown,
    /// An odd job was replayed in time.
    InTime,
    /// An odd job was late.
    OddJobLate,
    /// A row's job was late, on a table that would be feasible without its servers.
    RowsJobLate,
    /// An odd job was due after its server's last due time, whose job was still pending at the release.
    AfterAPendingJob,
    /// The same, but that job had finished.
    AfterAFinishedJob,
    /// An odd job was released after its server's last due time.
    AfterTheLastDueTime,
    /// An odd job had a due time that was rounded up.
    RoundedUp,
    /// An odd job of the highest cost was released.
    HighestCost,
    /// An odd job was released that has the highest of all row numbers in use.
    LastRowNumber,
    /// A replay was refused with 6 for a row number that is one too high.
    RowNumberOneTooHigh,
    /// A replay was refused with 7 for an odd job of cost 0.
    CostIsZero,
    /// A replay was refused with 7 for an odd job whose cost is one above its most.
    CostOneTooHigh,
    /// A replay was refused with 8 at an odd job.
    PlacesFull,
    /// All places were taken, some of them by odd jobs.
    AllPlacesTaken,
    /// An odd job was due at 2^40.
    DueAtTheLastTick,
    /// A replay was refused with 9 at a server's first odd job.
    DueTooLate,
    /// A replay was refused with 9 at a later one.
    DueTooLateByTheLast,
}

/// What has to be met by a call.
pub fn wanted(call: Call) -> BTreeSet<Met> {
    let by_both = [
        Met::CountMissing,
        Met::AIsZero,
        Met::AOneTooHigh,
        Met::BadABeforeMisspelledB,
        Met::BIsZero,
        Met::BOneBelowA,
        Met::BOneTooHigh,
        Met::InServer(0),
        Met::InServer(MOST_SERVERS - 1),
        Met::ExtraBytes,
        Met::PeriodByB,
        Met::PeriodByUnreducedB,
        Met::AIsB,
        Met::HighestAAndB,
        Met::SmallestShare,
        Met::Reducible,
        Met::NoRows,
        Met::MostRowsAndServers,
    ];
    let by_verdict = [
        Met::Feasible,
        Met::FeasibleAndFull,
        Met::OverloadedByServers,
        Met::OverloadedOffTheSteps,
        Met::OverloadedByServersAlone,
        Met::LateWitnessByServers,
        Met::FeasibleByRoundingDown,
    ];
    let by_replay = [
        Met::InTime,
        Met::OddJobLate,
        Met::RowsJobLate,
        Met::AfterAPendingJob,
        Met::AfterAFinishedJob,
        Met::AfterTheLastDueTime,
        Met::RoundedUp,
        Met::HighestCost,
        Met::LastRowNumber,
        Met::RowNumberOneTooHigh,
        Met::CostIsZero,
        Met::CostOneTooHigh,
        Met::PlacesFull,
        Met::AllPlacesTaken,
        Met::DueAtTheLastTick,
        Met::DueTooLate,
        Met::DueTooLateByTheLast,
    ];
    call.of_both_and_its_own(&by_both, &by_verdict, &by_replay)
}

/// What a call met of these.
pub fn met(case: &Case, outcome: &Outcome) -> Vec<Met> {
    match table::read(&case.table) {
        Err(refusal) => of_refusal(&case.table, refusal.reason, refusal.place),
        Ok(table) if table.servers.is_empty() => vec![],
        Ok(table) => {
            let mut all = of_accepted(&table);
            all.extend(match outcome.status {
                FEASIBLE | OVERLOADED => of_verdict(&table),
                IN_TIME | LATE => of_log(&table, case, outcome),
                refusal => of_record(&table, case, refusal, outcome.first()),
            });
            all
        }
    }
}

fn those_that_hold(kinds: &[(Met, bool)]) -> Vec<Met> {
    kinds.iter().filter(|(_, holds)| *holds).map(|(met, _)| *met).collect()
}

fn of_refusal(bytes: &[u8], reason: Reason, place: usize) -> Vec<Met> {
    let list = read_numbers(bytes);
    let value = |index: usize| list.get(index).map(|&(_, number)| number);
    let Some(rows) = value(2).filter(|&rows| rows <= MOST_ROWS) else { return vec![] };
    let server_count = 3 + 4 * rows as usize;
    let has_servers = value(server_count).is_some_and(|count| count > 0);
    match reason {
        Reason::Misspelled => {
            those_that_hold(&[(Met::CountMissing, list.len() == server_count && place == bytes.len())])
        }
        Reason::ValueOutOfRange => {
            let at = list.iter().position(|&(start, _)| start == place).filter(|&at| at > server_count);
            at.map_or(vec![], |at| of_value(&list, at, at - server_count - 1))
        }
        Reason::ExtraBytes => those_that_hold(&[(Met::ExtraBytes, has_servers)]),
        Reason::PeriodTooLong => {
            let numbers: Vec<u64> = list.iter().map(|&(_, number)| number).collect();
            let without = [&numbers[..server_count], &[0]].concat();
            let reduced =
                numbers[server_count + 1..].chunks(2).flat_map(|server| in_lowest_terms([server[0], server[1]]));
            let reduced: Vec<u64> = numbers[..=server_count].iter().copied().chain(reduced).collect();
            let accepted = |numbers: &[u64]| table::read(&tables::spell_numbers(numbers)).is_ok();
            those_that_hold(&[(Met::PeriodByB, accepted(&without)), (Met::PeriodByUnreducedB, accepted(&reduced))])
        }
        _ => vec![],
    }
}

/// What is met where the number at an index is refused. The index counted from the first server's a is `of_servers`.
fn of_value(list: &[(usize, u64)], index: usize, of_servers: usize) -> Vec<Met> {
    let number = list[index].1;
    let in_server = Met::InServer(of_servers as u64 / 2);
    let mut all = if of_servers.is_multiple_of(2) {
        those_that_hold(&[
            (Met::AIsZero, number == 0),
            (Met::AOneTooHigh, number == MOST_A + 1),
            (Met::BadABeforeMisspelledB, index + 1 == list.len()),
        ])
    } else {
        those_that_hold(&[
            (Met::BIsZero, number == 0),
            (Met::BOneBelowA, number + 1 == list[index - 1].1),
            (Met::BOneTooHigh, number == MOST_B + 1),
        ])
    };
    all.push(in_server);
    all
}

fn in_lowest_terms([a, b]: Server) -> Server {
    let divisor = (1..=a).rev().find(|divisor| a % divisor == 0 && b % divisor == 0).unwrap_or(1);
    [a / divisor, b / divisor]
}

fn of_accepted(table: &table::Table) -> Vec<Met> {
    let any = |holds: fn(u64, u64) -> bool| table.servers.iter().any(|server| holds(server.a, server.b));
    let most = [table.rows.len() as u64, table.servers.len() as u64] == [MOST_ROWS, MOST_SERVERS];
    those_that_hold(&[
        (Met::AIsB, any(|a, b| a == b)),
        (Met::HighestAAndB, any(|a, b| a == MOST_A && b == MOST_B)),
        (Met::SmallestShare, any(|a, b| a == 1 && b == MOST_B)),
        (Met::Reducible, any(|a, b| a > 1 && b % a == 0)),
        (Met::NoRows, table.rows.is_empty()),
        (Met::MostRowsAndServers, most),
    ])
}

/// The same table without its servers, but with the same period.
fn without_servers(table: &table::Table) -> table::Table {
    table::Table { servers: vec![], ..table.clone() }
}

fn of_verdict(table: &table::Table) -> Vec<Met> {
    match verdict(table) {
        Verdict::Feasible => {
            let of_rows: u64 = table.rows.iter().map(|row| row.x * row.c * (table.period / row.y)).sum();
            let of_servers: u64 = table.servers.iter().map(|server| server.a * (table.period / server.b)).sum();
            let full = of_rows + of_servers + table.timer.s * (table.period / table.timer.p) == table.period;
            // In one tick every server would have a demand of one.
            let rounded_up = table.servers.len() as u64 + table.timer.s.min(1);
            those_that_hold(&[
                (Met::Feasible, !table.rows.is_empty()),
                (Met::FeasibleAndFull, full),
                (Met::FeasibleByRoundingDown, rounded_up > 1),
            ])
        }
        Verdict::Overloaded { length, .. } => {
            let is_a_step = table.rows.iter().any(|row| length >= row.d && (length - row.d).is_multiple_of(row.y));
            let by_servers = verdict(&without_servers(table)) == Verdict::Feasible;
            those_that_hold(&[
                (Met::OverloadedByServers, by_servers),
                (Met::OverloadedOffTheSteps, by_servers && !is_a_step && !table.rows.is_empty()),
                (Met::OverloadedByServersAlone, table.rows.is_empty() && table.timer.s == 0),
                (Met::LateWitnessByServers, by_servers && length > last_of_first_period(table)),
            ])
        }
    }
}

/// What a whole log shows. The records of its script have the costs, and are the jobs in the order of their serials.
fn of_log(table: &table::Table, case: &Case, outcome: &Outcome) -> Vec<Met> {
    let rows = table.rows.len() as u64;
    let mut jobs = jobs_of(&outcome.log[..outcome.first()]);
    jobs.sort();
    let odd: Vec<[u64; 5]> = jobs.iter().copied().filter(|job| job[1] >= rows).collect();
    if odd.is_empty() {
        return vec![];
    }
    let numbers = read_numbers(&case.script);
    let cost = |job: &[u64; 5]| numbers[3 * job[0] as usize + 2].1;
    let share = |job: &[u64; 5]| &table.servers[(job[1] - rows) as usize];
    let before = |job: &[u64; 5]| odd.iter().rev().find(|other| other[1] == job[1] && other[0] < job[0]);
    let after = |holds: &dyn Fn(u64, &[u64; 5]) -> bool| {
        odd.iter().any(|job| before(job).is_some_and(|earlier| holds(job[2], earlier)))
    };
    let late = |[_, _, _, due, finish]: &[u64; 5]| finish > due;
    let by_servers = || verdict(&without_servers(table)) == Verdict::Feasible;
    those_that_hold(&[
        (Met::InTime, odd.iter().any(|job| !late(job))),
        (Met::OddJobLate, odd.iter().any(late)),
        (Met::RowsJobLate, jobs.iter().any(|job| job[1] < rows && late(job)) && by_servers()),
        (Met::AfterAPendingJob, after(&|release, job| release < job[4].min(job[3]))),
        (Met::AfterAFinishedJob, after(&|release, job| job[4] <= release && release < job[3])),
        (Met::AfterTheLastDueTime, after(&|release, job| release > job[3])),
        (Met::RoundedUp, odd.iter().any(|job| !(cost(job) * share(job).b).is_multiple_of(share(job).a))),
        (Met::HighestCost, odd.iter().any(|job| cost(job) == MOST_ODD_COST)),
        (Met::LastRowNumber, odd.iter().any(|job| job[1] + 1 == rows + table.servers.len() as u64)),
        (Met::AllPlacesTaken, most_pending(&outcome.log[..outcome.first()]) == MOST_PENDING),
        (Met::DueAtTheLastTick, odd.iter().any(|job| job[3] == LAST_TICK)),
    ])
}

/// What is met where a record is refused. A place is the start of a gap, a row number or a cost.
fn of_record(table: &table::Table, case: &Case, refusal: u32, place: usize) -> Vec<Met> {
    let rows = table.rows.len() as u64;
    let numbers = read_numbers(&case.script);
    let Some(at) = numbers.iter().position(|&(start, _)| start == place) else { return vec![] };
    let number = numbers[at].1;
    let row_of = |record: usize| numbers[3 * record + 1].1;
    let of_server = at % 3 != 1 && 3 * (at / 3) + 1 < numbers.len() && row_of(at / 3) >= rows;
    let is = |reason: Reason| refusal == reason.number();
    let is_first = || (0..at / 3).all(|record| row_of(record) != row_of(at / 3));
    those_that_hold(&[
        (Met::RowNumberOneTooHigh, is(Reason::NoSuchRow) && number == rows + table.servers.len() as u64),
        (Met::CostIsZero, of_server && is(Reason::CostOutOfRange) && number == 0),
        (Met::CostOneTooHigh, of_server && is(Reason::CostOutOfRange) && number == MOST_ODD_COST + 1),
        (Met::PlacesFull, of_server && is(Reason::PlacesFull)),
        (Met::DueTooLate, of_server && is(Reason::DueTooLate) && is_first()),
        (Met::DueTooLateByTheLast, of_server && is(Reason::DueTooLate) && !is_first()),
    ])
}

/// Makes servers of any kind for rows. About half of the tables have none, and some few are refused.
pub fn any(rows: &[Row], random: &mut Random) -> Vec<Server> {
    match random.below(24) {
        0..=11 => vec![],
        12..=21 => some(rows, random),
        22 => at_limits(random),
        _ => bad(random),
    }
}

/// Makes one server or more. Most of them have a b that the rows' y have to do with, so that the period stays short.
pub fn some(rows: &[Row], random: &mut Random) -> Vec<Server> {
    let several = random.within(1, MOST_SERVERS);
    let count = random.pick(&[1, 1, 1, 2, 2, 3, several, MOST_SERVERS - 1, MOST_SERVERS]);
    (0..count)
        .map(|_| {
            let y = if rows.is_empty() { 8 } else { random.pick(rows)[1].clamp(1, MOST_B) };
            let b = match random.below(8) {
                0..=3 => y,
                4 => (y * random.within(1, 4)).min(MOST_B),
                5 => random.pick(&[1, 2, 3, 4, 6, 12]),
                6 => random.within(1, 16),
                _ => random.pick(&[128, 1_024, MOST_B]),
            };
            let most_a = b.div_ceil(random.pick(&[1, 2, 4, 8, 64]));
            [if random.one_in(6) { most_a } else { random.within(1, most_a) }, b]
        })
        .collect()
}

/// Makes servers with a and b at their limits.
fn at_limits(random: &mut Random) -> Vec<Server> {
    let count = random.pick(&[1, 1, 2, MOST_SERVERS - 1, MOST_SERVERS]);
    let all = [[1, 1], [1, MOST_B], [MOST_A, MOST_B], [MOST_A - 1, MOST_B], [512, 1_024], [127, 128], [128, 128]];
    (0..count).map(|_| random.pick(&all)).collect()
}

/// Makes servers of which one is refused, or nearly, or too many of them.
fn bad(random: &mut Random) -> Vec<Server> {
    let too_many = MOST_SERVERS + random.pick(&[1, 1, 2, MOST_ROWS - MOST_SERVERS]);
    let count = random.pick(&[1, 2, MOST_SERVERS, MOST_SERVERS, too_many]);
    let mut servers = vec![[1, random.pick(&[8, 9, 200])]; count as usize];
    let far = random.pick(&[1 << 14, 1 << 32, (1 << 32) + 1, (1 << 32) + 4, 1 << 41, numbers::LARGEST]);
    let a = random.pick(&[1, 2, 4, 127, 128, MOST_A - 1, MOST_A]);
    let last = servers.len() - 1;
    servers[random.pick(&[0, last, last / 2])] = match random.below(8) {
        0 => [0, random.pick(&[0, 1, 4])],
        1 => [MOST_A + 1, random.pick(&[1, MOST_B, MOST_B + 1])],
        2 => [far, random.pick(&[4, far])],
        3 => [a, 0],
        4 => [a, a - 1],
        5 => [a, MOST_B + 1],
        6 => [a, far],
        _ => [a, a],
    };
    servers
}

/// The table, or where its servers make the period too long, one with servers whose b is small, or with none.
pub fn fitting(table: Table) -> Table {
    let too_long = |servers: &[Server]| {
        let refusal = table::read(&tables::spell_all(table.timer, &table.rows, servers)).err();
        refusal.is_some_and(|refusal| refusal.reason == Reason::PeriodTooLong)
    };
    let small: Vec<Server> = table.servers.iter().map(|&[a, _]| [1, 1 << (a % 4)]).collect();
    let servers = [table.servers.clone(), small].into_iter().find(|servers| !too_long(servers));
    Table { servers: servers.unwrap_or_default(), ..table }
}

/// Makes servers without rows. Some take the whole processor exactly, or a little more, with or without taken ticks.
pub fn alone(random: &mut Random) -> Table {
    let period = random.pick(&[4, 6, 12, 60, 128, 1_024, MOST_B]);
    let divisors = tables::divisors(period);
    let p = random.pick(&divisors);
    let s = if random.one_in(2) { 0 } else { random.below(p) };
    let mut free = period - s * (period / p);
    let mut servers = vec![];
    for _ in 0..random.below(MOST_SERVERS) {
        let b = random.pick(&divisors);
        let a = random.within(1, b);
        if a * (period / b) < free {
            free -= a * (period / b);
            servers.push([a, b]);
        }
    }
    let a = (free + random.below(3)).saturating_sub(1).clamp(1, period);
    servers.push([a, period]);
    Table { timer: [s, p], rows: vec![], servers }
}

/// Makes rows and servers that together ask for a little more than there is. The rows are due so late that the witness is
/// long.
pub fn late_witness(random: &mut Random) -> Table {
    let y = random.within(2, 40);
    let d = random.pick(&[20, 100, 400, 2_000]) + random.below(50);
    let a = random.within(1, y - 1);
    let (rows, servers) = match random.below(3) {
        0 => (vec![[1, y, d, y - a + 1]], vec![[a, y]]),
        1 => (vec![[1, y, d, y - a]], vec![[a, y], [1, random.within(1, 40)]]),
        _ => (vec![[1, y, d, y]], vec![[1, random.within(2, 40)]]),
    };
    Table { timer: NO_TIMER, rows, servers }
}

/// Makes periods near the limit by b: 1023 with 1025 is just accepted, and 1141 with 919 is just refused.
pub fn long_period(random: &mut Random) -> Table {
    let pair = random.pick(&LONG_PERIODS);
    let [b, other] = random.pick(&[[pair.0, pair.1], [pair.1, pair.0]]);
    let a = random.pick(&[1, 1, b / 2, b / 4, b]);
    let mut table = Table { timer: NO_TIMER, rows: vec![], servers: vec![[a, b.min(MOST_B)]] };
    match random.below(3) {
        0 => table.rows.push([1, other, due_near(other, random), random.within(1, other / 3)]),
        1 => table.timer = [random.pick(&[0, 1]), other.min(MOST_P)],
        _ => table.servers.push([random.pick(&[1, other / 2]), other]),
    }
    table
}

/// Makes a table whose servers are refused, or nearly. About half of these have something else that is refused, too.
pub fn any_bad(random: &mut Random) -> (Table, Vec<u8>) {
    let mut table = tables::to_replay(random);
    table.servers = match random.below(8) {
        0 => at_limits(random),
        1 => long_period(random).servers,
        _ => bad(random),
    };
    let before = tables::spell_with(table.timer, &table.rows);
    let before = &before[..before.len() - 1];
    let bytes = match random.below(14) {
        0 => before.to_vec(),
        1 | 2 => {
            let [a, b] = random.pick(&table.servers).map(|number| numbers::spell(number).unwrap());
            [before, &[1], &a, &misspelled(&b, random)].concat()
        }
        3 => {
            let [a, b] = random.pick(&table.servers).map(|number| numbers::spell(number).unwrap());
            [before, &[1], &misspelled(&a, random), &b].concat()
        }
        4 => lengthen(&table.spell(), random),
        5 => mutate(&table.spell(), random),
        6 => {
            let count = random.pick(&[MOST_SERVERS + 1, MOST_ROWS, MOST_ROWS + 1, 1 << 8, 1 << 32, 1 << 41]);
            [before, &numbers::spell(count).unwrap()].concat()
        }
        7 => {
            let mut bytes = table.spell();
            let start = random.within(before.len() as u64, bytes.len() as u64 - 1) as usize;
            bytes.truncate(start);
            bytes
        }
        _ => table.spell(),
    };
    (table, bytes)
}

/// The named tables: every server example, and the server count, a and b on either side of their limits, alone and beside
/// every other refusal.
pub fn edge_tables() -> Vec<Vec<u8>> {
    let v3 = [[1, 4, 4, 2], [1, 6, 6, 3]];
    let mut tables = vec![];
    let mut with =
        |timer: Timer, rows: &[Row], servers: &[Server]| tables.push(tables::spell_all(timer, rows, servers));
    // These are S2 to S8, and the table of R3.
    with(NO_TIMER, &[], &[[1, 4]]);
    with(NO_TIMER, &[], &[[4_096, 4_096]]);
    with(NO_TIMER, &v3, &[[1, 12]]);
    with(NO_TIMER, &[], &[[1, 1], [1, 4_096]]);
    with([1, 4], &[], &[[3, 4]]);
    with([1, 4], &[], &[[4, 5]]);
    with(NO_TIMER, &[[1, 4, 7, 2]], &[[1, 3], [1, 4]]);
    with(NO_TIMER, &[[1, 4, 4, 2]], &[[1, 4]]);
    for b in [0, 1, 2, 3, 4, 127, 128, MOST_B - 1, MOST_B, MOST_B + 1, 1 << 14, 1 << 32, (1 << 32) + 4, 1 << 41] {
        for a in [0, 1, 2, 4, 127, 128, MOST_A - 1, MOST_A, MOST_A + 1, 1 << 32, (1 << 32) + 1, 1 << 41] {
            with(NO_TIMER, &[], &[[a, b]]);
            with([0, 2], &[[1, 2, 2, 1]], &[[1, 2], [a, b]]);
        }
        with(NO_TIMER, &v3, &[[b.saturating_sub(1), b], [0, 0]]);
    }
    // A bad server in every place of the longest list, and as many servers as the limit, one less and one more.
    for server in 0..MOST_SERVERS as usize {
        for bad in [[0, 8], [9, 8], [MOST_A + 1, 8], [1, MOST_B + 1]] {
            let mut servers = [[1, 8]; MOST_SERVERS as usize];
            servers[server] = bad;
            with(NO_TIMER, &[], &servers);
            with([1, 128], &[[1, 300, 300, 4]], &servers);
        }
    }
    for count in [MOST_SERVERS - 1, MOST_SERVERS, MOST_SERVERS + 1, MOST_ROWS, MOST_ROWS + 1] {
        let servers = vec![[1, 16]; count as usize];
        for rows in [0, 1, MOST_ROWS - 1, MOST_ROWS, MOST_ROWS + 1] {
            with(NO_TIMER, &vec![[1, 128, 128, 1]; rows as usize], &servers);
            with([1, 128], &vec![[1, 128, 127, 1]; rows as usize], &servers);
        }
    }
    // H is at its longest or just above it by b, with a row, a timer or another server, and b joins it as it stands.
    for [b, y] in [[1_023, 1_025], [1_025, 1_023], [919, 1_141], [1_141, 919], [1_024, 1_025], [MOST_B, 257]] {
        for a in [1, b / 2, b] {
            with(NO_TIMER, &[[1, y, y, y]], &[[a, b]]);
            with([y - 1, y], &[], &[[a, b]]);
            with(NO_TIMER, &[], &[[a, b], [y - 1, y]]);
            with(NO_TIMER, &[[1, y, 4, 5]], &[[a, b]]);
        }
    }
    // Servers and one row, or a timer, that together take the whole processor, or a little more.
    for [a, b] in [[1, 2], [2, 3], [1, 8], [7, 8], [6, 8], [100, 128], [MOST_A - 1, MOST_B]] {
        for c in [b - a, b - a + 1] {
            for d in [b - 1, b, b + 1, 2 * b - 1, 2 * b, 3 * b] {
                with(NO_TIMER, &[[1, b, d.max(c), c]], &[[a, b]]);
            }
            with([c.min(b - 1), b], &[], &[[a, b]]);
            with(NO_TIMER, &[], &[[a, b], [c, b]]);
        }
    }
    for count in [7, 8] {
        for [a, b] in [[1, 7], [1, 8], [1, 9], [512, MOST_B], [513, MOST_B], [2, 16]] {
            with(NO_TIMER, &[], &vec![[a, b]; count]);
        }
    }
    // These have witnesses far past H + the largest d, by their servers alone, and at lengths between the rows' steps.
    with(NO_TIMER, &[[1, 2, 1_000, 1]], &[[1, 2], [1, 3]]);
    with(NO_TIMER, &[[1, 30, 1_000, 30]], &[[1, 41]]);
    with(NO_TIMER, &[[1, 255, 4_000, 255]], &[[1, 256]]);
    with([1, 15], &[[1, 15, 300, 1]], &[[14, 15]]);
    with(NO_TIMER, &[[1, 12, 29, 5]], &[[1, 3], [1, 4]]);

    // Each byte of a server count, an a and a b is missing, misspelled or far too high.
    let whole = tables::spell_all([1, 4], &[[1, 8, 6, 2]], &[[1, 128], [127, 300]]);
    let start = tables::spell_with([1, 4], &[[1, 8, 6, 2]]).len() - 1;
    tables.extend((start..whole.len()).map(|cut| whole[..cut].to_vec()));
    for place in start..whole.len() {
        for bad in
            [&[0x80, 0x00][..], &[0x81, 0x80, 0x00], &[0xff; 6], &[0x80; 5], &[0xff, 0xff, 0xff, 0xff, 0xff, 0x7f]]
        {
            tables.push([&whole[..place], bad].concat());
            tables.push([&whole[..place], bad, &whole[place + 1..]].concat());
        }
    }
    for extra in [&[0x00][..], &[0x80], &[0x80, 0x00], &[1, 4]] {
        tables.push([&whole[..], extra].concat());
        tables.push([&tables::spell_all([0, 919], &[], &[[1, 1_141]]), extra].concat());
    }
    // A bad a comes before everything after it, and a server count too high before every server.
    for rest in [&[1, 0][..], &[1, 0x81, 0x20], &[1, 4, 3], &[9], &[8], &[1], &[0]] {
        for after in [&[][..], &[0x80, 0x00], &[0x81], &[0], &[1, 1]] {
            tables.push([&[0, 1, 0], rest, after].concat());
            tables.push([&[0, 1, 1, 1, 4, 4, 2], rest, after].concat());
            tables.push([&[0, 1, 1, 1, 4, 4, 5], rest, after].concat());
        }
    }
    tables.extend(
        [1 << 8, (1 << 8) + 1, 1 << 32, (1 << 32) + 1, 1 << 41, numbers::LARGEST]
            .map(|count| tables::spell_numbers(&[0, 1, 0, count, 1, 4])),
    );
    tables
}

/// The named replays: R3 and S1, odd jobs with every kind of start and of cost, at the limit of pending jobs, and at the
/// end of time.
pub fn edge_scripts() -> Vec<(Vec<u8>, Vec<u8>)> {
    let mut list = vec![];
    let mut with = |timer: Timer, rows: &[Row], servers: &[Server], records: &[Record]| {
        list.push((tables::spell_all(timer, rows, servers), scripts::spell(records)));
    };
    let row = [1, 4, 4, 2];
    with(NO_TIMER, &[row], &[[1, 4]], &[[0, 0, 2], [0, 1, 1], [1, 1, 2]]);
    with(NO_TIMER, &[], &[[1, 4]], &[[30, 0, 10], [39, 0, 20], [71, 0, 20]]);
    // Odd jobs that come before, at and after the finish and the due time of the one before.
    for timer in [[0, 1], [1, 4], [2, 3]] {
        for [a, b] in [[1, 1], [1, 2], [2, 3], [3, 4], [2, 4], [5, 7], [1, 9]] {
            for gap in 0..=12 {
                with(timer, &[], &[[a, b]], &[[1, 0, 3], [gap, 0, 2], [gap, 0, 4]]);
                with(timer, &[row], &[[1, 9], [a, b]], &[[0, 2, 3], [0, 0, 1], [gap, 2, 1], [0, 1, 1], [gap, 2, 2]]);
            }
        }
    }
    // Row numbers and costs on either side of their limits, some of them far enough to look right in fewer bits.
    for (rows, servers) in [(0, 1), (1, 1), (1, 8), (64, 8), (64, 1), (63, 1), (2, 0)] {
        let (of_rows, of_servers) = (vec![[1, 128, 128, 1]; rows as usize], vec![[1, 16]; servers as usize]);
        let all = rows + servers;
        for number in [0, rows, all - 1, all, all + 1, 64, 72, 73, 1 << 8, (1 << 8) + rows, 1 << 32, (1 << 32) + rows] {
            with(NO_TIMER, &of_rows, &of_servers, &[[0, number, 1]]);
        }
        for cost in [0, 1, 2, 4_095, 4_096, 4_097, 1 << 13, (1 << 16) + 1, 1 << 32, (1 << 32) + 1, 1 << 41] {
            with(NO_TIMER, &of_rows, &of_servers, &[[0, all - 1, cost]]);
            with(NO_TIMER, &of_rows, &of_servers, &[[0, 0, 1], [3, all - 1, 1], [0, all - 1, cost]]);
        }
    }
    // Odd jobs take the last place, one place more, and the place that a finished job frees.
    for servers in [&[[1, 1]][..], &[[1, 4], [1, 1]], &[[1, 4]; 8]] {
        for count in [MOST_PENDING - 1, MOST_PENDING, MOST_PENDING + 1] {
            for rows in [&[][..], &[row]] {
                let all = (rows.len() + servers.len()) as u64;
                let burst: Vec<Record> = (0..count as u64).map(|job| [0, (job + 1) % all, 1]).collect();
                with(NO_TIMER, rows, servers, &burst);
                with([1, 2], rows, servers, &[&burst[..], &[[2, all - 1, 1]]].concat());
                with(NO_TIMER, rows, servers, &[&burst[..], &[[1, all - 1, 1], [0, all - 1, 1]]].concat());
            }
        }
    }
    // Odd jobs that are due at 2^40, before it and after it, as the first of their server and as a later one.
    for [a, b] in [[1, 1], [1, 4], [2, 3], [3, 4], [MOST_A - 1, MOST_B], [1, MOST_B], [MOST_A, MOST_B]] {
        for cost in [1, 2, 3, 10, MOST_ODD_COST] {
            let ticks = (cost * b).div_ceil(a);
            for time in [LAST_TICK - ticks - 1, LAST_TICK - ticks, LAST_TICK - ticks + 1] {
                with(NO_TIMER, &[], &[[a, b]], &[[time, 0, cost]]);
                with(NO_TIMER, &[], &[[a, b]], &[[time, 0, cost], [0, 0, 1]]);
                with([1, 3], &[[1, 1, 1, 1]], &[[a, b]], &[[0, 1, 1], [time, 1, cost], [0, 0, 1]]);
            }
            let first = b.div_ceil(a);
            for time in [LAST_TICK - first - ticks - 1, LAST_TICK - first - ticks, LAST_TICK - first - ticks + 1] {
                with(NO_TIMER, &[], &[[a, b]], &[[time, 0, 1], [1, 0, cost]]);
            }
        }
    }
    with(NO_TIMER, &[], &[[1, 1]], &[[LAST_TICK, 0, 1]]);
    with(NO_TIMER, &[], &[[1, 1]], &[[LAST_TICK, 1, 1]]);
    with(NO_TIMER, &[], &[[1, 1]], &[[LAST_TICK, 0, 4_097]]);
    with(NO_TIMER, &[], &[[1, 1]], &[[LAST_TICK + 1, 0, 1]]);
    // The clock comes to 2^40 in the final ticks, with an odd job pending or just without one.
    for timer in [[0, 1], [1, 2], [1, 3], [2, 3]] {
        for from_the_end in [1, 2, 3, 4] {
            let first = LAST_TICK - from_the_end;
            with(timer, &[], &[[1, 1]], &[[first, 0, from_the_end]]);
            with(timer, &[], &[[1, 1], [1, 1]], &[[first, 0, 1], [0, 1, 1]]);
            with(timer, &[], &[[1, 1], [1, 1]], &[[first, 0, from_the_end], [0, 1, from_the_end]]);
        }
    }
    list
}
