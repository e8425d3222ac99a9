//! The cases that are measured: tables, scripts and lists of calls, each with the status that it has to end in.

use crate::library::RUN_SIZE;

pub struct Case {
    pub group: &'static str,
    pub name: String,
    /// This says in words how much there is to do.
    pub size: String,
    pub work: Work,
    pub status: u32,
    /// This is the answer's first number, where the case is about it.
    pub first: Option<u64>,
    /// The proved program may take at most this many times as long as the plain one, where a target is set.
    pub target: Option<f64>,
}

pub enum Work {
    /// Each of these tables gets its verdict.
    Verdicts(Vec<Vec<u8>>),
    /// A script is replayed on a table.
    Replay { table: Vec<u8>, script: Vec<u8> },
    /// These calls are played one after another on a fresh run of a table, and the answer of each has to start with this word.
    Calls { form: Form, table: Vec<u8>, calls: Vec<u8>, kinds: Vec<u64> },
}

/// The proved calls take a run by value and hand back the next one, or a run is lent to them, or they are the host's calls
/// on a run in its own memory.
#[derive(Clone, Copy, PartialEq)]
pub enum Form {
    ByValue,
    Lent,
    Live,
}

/// x, y, d and c.
pub type Row = [u64; 4];
/// a and b.
pub type Server = [u64; 2];

/// The servers of the cases with odd jobs alone. They have all of the processor together.
pub const WHOLE: [Server; 8] = [[1, 8]; 8];
/// The servers of a run beside rows. They have half of the processor together.
const HALF: [Server; 8] = [[1, 16]; 8];

/// The timer takes the first s ticks of every p.
#[derive(Clone, Copy)]
pub struct Timer {
    pub s: u64,
    pub p: u64,
}

pub const NO_TIMER: Timer = Timer { s: 0, p: 1 };

/// The timers of the cases with one. They take a tenth, half and three quarters of all ticks.
const TIMERS: [Timer; 3] = [Timer { s: 1, p: 10 }, Timer { s: 1, p: 2 }, Timer { s: 3, p: 4 }];

impl Timer {
    /// Returns the least time from clock 0, in whole p, with so many free ticks.
    pub fn whole_periods(&self, free: u64) -> u64 {
        free.div_ceil(self.p - self.s) * self.p
    }

    /// Returns the time right after so many free ticks, and 0 for none.
    pub fn after(&self, free: u64) -> u64 {
        match free.checked_sub(1) {
            Some(earlier) => earlier / (self.p - self.s) * self.p + self.s + earlier % (self.p - self.s) + 1,
            None => 0,
        }
    }
}

/// Says the timer and the servers behind a case's name.
pub fn beside(timer: Timer, servers: &[Server]) -> String {
    let mut said = String::new();
    if timer.s > 0 {
        said += &format!(", timer {}/{}", timer.s, timer.p);
    }
    if !servers.is_empty() {
        said += &format!(", {} servers", servers.len());
    }
    said
}

/// The gap, the row number and the cost.
pub type Record = [u64; 3];

const RECORDS: u64 = 100_000;
const NUMBERS: usize = 1_000_000;
/// A list of calls on a run goes on for this many ticks. No job has so many units left, so that a job of the most units is
/// not finished by them.
const TICKS: u64 = 4_000;

pub fn all() -> Vec<Case> {
    let mut cases = verdicts();
    cases.extend(replays());
    cases.extend(readings());
    cases.extend(ticks());
    cases
}

fn verdicts() -> Vec<Case> {
    // H is 1,048,575 in both tables. The d of each row is its y, so a sum of x * c / y of at most 1 is feasible.
    let two = [[1, 1023, 1023, 511], [1, 1025, 1025, 512]];
    let periods = [1023, 1025, 825, 775, 615, 465, 451, 341, 275, 205, 165, 155, 123, 93, 75, 33];
    let sixteen: Vec<Row> = periods.iter().map(|&y| [1, y, y, y / 16]).collect();
    // The sum of x * c / y is 65/64, and no row has any demand in a length below 16,384, so the witness is long.
    let two_late = [[1, 64, 16_384, 32], [1, 64, 16_384, 33]];
    let mut sixteen_late = [[1, 64, 16_384, 4]; 16];
    sixteen_late[15][3] = 5;
    // This timer takes a fifteenth of all ticks, and its p divides H, so H stays as it is. The rows ask for less instead.
    let fifteenth = Timer { s: 1, p: 15 };
    let two_beside = [[1, 1023, 1023, 475], [1, 1025, 1025, 475]];
    let sixteen_beside: Vec<Row> = periods.iter().map(|&y| [1, y, y, y / 18]).collect();
    // The sum of s / p and of x * c / y is 65/64, and the rows have no demand in a length below 16,384.
    let sixty_fourth = Timer { s: 1, p: 64 };
    let two_late_beside = [[1, 64, 16_384, 32]; 2];
    let sixteen_late_beside = [[1, 64, 16_384, 4]; 16];
    // The b of these servers divide H too, so H stays as it is. Beside rows the servers have what those leave, which is a
    // fourteenth at least, and alone they have nearly all.
    let eight = |part: u64| -> Vec<Server> { periods[..8].iter().map(|&b| [b / part, b]).collect() };
    let (eight_beside, eight_alone) = (eight(8 * 14), eight(8));
    // The sum of a / b is 1/64, and the rows ask for 1, with no demand in a length below 16,384.
    let eight_late_beside = [[1, 512]; 8];
    // H is 1,048,575, and the demand grows by H + 1 in that time. So the witness is H, where no server's demand is rounded.
    let eight_late: Vec<Server> = (0..8).map(|i| [128, if i % 2 == 0 { 1023 } else { 1025 }]).collect();
    vec![
        feasible("feasible, 2 rows", NO_TIMER, &two, &[], 1_048_575 + 1_025),
        feasible("feasible, 16 rows", NO_TIMER, &sixteen, &[], 1_048_575 + 1_025),
        overloaded("late witness, 2 rows", NO_TIMER, &two_late, &[], 1_060_864),
        overloaded("late witness, 16 rows", NO_TIMER, &sixteen_late, &[], 1_060_864),
        feasible("feasible, 2 rows", fifteenth, &two_beside, &[], 1_048_575 + 1_025),
        feasible("feasible, 16 rows", fifteenth, &sixteen_beside, &[], 1_048_575 + 1_025),
        overloaded("late witness, 2 rows", sixty_fourth, &two_late_beside, &[], 1_044_544),
        overloaded("late witness, 16 rows", sixty_fourth, &sixteen_late_beside, &[], 1_044_544),
        feasible("feasible, 2 rows", NO_TIMER, &two_beside, &eight_beside, 1_048_575 + 1_025),
        feasible("feasible, 16 rows", NO_TIMER, &sixteen_beside, &eight_beside, 1_048_575 + 1_025),
        feasible("feasible", NO_TIMER, &[], &eight_alone, 1_048_575),
        overloaded("late witness, 2 rows", NO_TIMER, &two_late_beside, &eight_late_beside, 1_044_992),
        overloaded("late witness, 16 rows", NO_TIMER, &sixteen_late_beside, &eight_late_beside, 1_044_992),
        overloaded("late witness", NO_TIMER, &[], &eight_late, 1_048_575),
    ]
}

/// The verdict looks at all lengths up to H + the largest d.
fn feasible(name: &str, timer: Timer, rows: &[Row], servers: &[Server], lengths: u64) -> Case {
    Case { status: 20, first: Some(0), ..verdict(name, timer, rows, servers, lengths) }
}

/// The verdict looks at the lengths up to the witness.
fn overloaded(name: &str, timer: Timer, rows: &[Row], servers: &[Server], witness: u64) -> Case {
    Case { status: 21, first: Some(witness), ..verdict(name, timer, rows, servers, witness) }
}

fn verdict(name: &str, timer: Timer, rows: &[Row], servers: &[Server], lengths: u64) -> Case {
    let size = format!("{} lengths", grouped(lengths));
    Case {
        group: "verdict",
        name: name.to_string() + &beside(timer, servers),
        size,
        work: Work::Verdicts(vec![table(timer, rows, servers)]),
        status: 0,
        first: None,
        target: Some(1.3),
    }
}

/// With four jobs of each row this many jobs are pending. Their cost fills the free ticks of y and d, or nearly, so the
/// table is just feasible.
fn four_jobs_a_row(timer: Timer, pending: u64, cost: u64) -> Vec<Row> {
    let y = timer.whole_periods(pending * cost);
    vec![[4, y, y, cost]; pending as usize / 4]
}

/// So many jobs are released at once, and then one more for each that finishes. They go round so many row numbers.
pub fn busy_records(timer: Timer, numbers: u64, pending: u64, cost: u64, count: u64) -> Vec<Record> {
    let finish = |i: u64| timer.after((i + 1).saturating_sub(pending) * cost);
    let gap = |i| if i > 0 { finish(i) - finish(i - 1) } else { 0 };
    (0..count).map(|i| [gap(i), i % numbers, cost]).collect()
}

/// So many jobs are released at once, and such a time lies before each such burst. They go round so many row numbers.
pub fn sparse_records(apart: u64, numbers: u64, pending: u64, cost: u64, count: u64) -> Vec<Record> {
    let gap = |i| if i % pending == 0 { apart } else { 0 };
    (0..count).map(|i| [gap(i), i % numbers, cost]).collect()
}

fn replays() -> Vec<Case> {
    let n = RECORDS;
    let wide = [[64, 1024, 1024, 1]; 16];

    // There are four jobs in every y ticks, and each costs two units.
    let few_busy = |timer: Timer| {
        let y = timer.whole_periods(8);
        let records: Vec<_> = (0..n).map(|i| [if i > 0 && i % 4 == 0 { y } else { 0 }, i % 4, 2]).collect();
        replay("busy, 4 pending", timer, &[[1, y, y, 2]; 4], &[], &records)
    };
    // One job is released every tick, on sixteen rows that keep 64 due times each.
    let wide_busy = busy_records(NO_TIMER, 16, 1, 1, n);
    // One job is released at a time, and nothing is pending for most of the time.
    let few_sparse = |timer: Timer| {
        let y = timer.whole_periods(8);
        let records = sparse_records(1_000, 4, 1, 2, n);
        replay("sparse, 1 pending", timer, &[[1, y, y, 2]; 4], &[], &records)
    };
    let busy = |name, timer, pending, cost| {
        let records = busy_records(timer, pending / 4, pending, cost, n);
        replay(name, timer, &four_jobs_a_row(timer, pending, cost), &[], &records)
    };
    // Nothing is pending for most of the time.
    let sparse = |name, timer, pending| {
        let records = sparse_records(10_000, pending / 4, pending, 1, n);
        replay(name, timer, &four_jobs_a_row(timer, pending, 1), &[], &records)
    };

    let mut cases = vec![
        few_busy(NO_TIMER),
        busy("busy, 64 pending", NO_TIMER, 64, 1),
        busy("busy, 256 pending", NO_TIMER, 256, 1),
        busy("busy, 64 pending, 16 ticks a job", NO_TIMER, 64, 16),
        busy("busy, 256 pending, 16 ticks a job", NO_TIMER, 256, 16),
        replay("busy, 1 pending, 1,024 due times kept", NO_TIMER, &wide, &[], &wide_busy),
        few_sparse(NO_TIMER),
        sparse("sparse, 64 pending", NO_TIMER, 64),
        sparse("sparse, 256 pending", NO_TIMER, 256),
    ];
    for timer in TIMERS {
        cases.push(few_busy(timer));
        cases.push(busy("busy, 64 pending", timer, 64, 1));
        cases.push(busy("busy, 256 pending", timer, 256, 1));
        cases.push(busy("busy, 64 pending, 16 ticks a job", timer, 64, 16));
        cases.push(few_sparse(timer));
        cases.push(sparse("sparse, 64 pending", timer, 64));
    }
    // All jobs are odd ones, and there are no rows.
    let numbers = WHOLE.len() as u64;
    for (cost, ticks) in [(1, ""), (16, ", 16 ticks a job")] {
        for pending in [1, 64, 256] {
            let records = busy_records(NO_TIMER, numbers, pending, cost, n);
            let name = format!("busy, {pending} pending{ticks}");
            cases.push(replay(&name, NO_TIMER, &[], &WHOLE, &records));
        }
        for pending in [1, 64, 256] {
            let apart = if pending == 1 { 1_000 } else { 10_000 };
            let records = sparse_records(apart, numbers, pending, cost, n);
            let name = format!("sparse, {pending} pending{ticks}");
            cases.push(replay(&name, NO_TIMER, &[], &WHOLE, &records));
        }
    }
    cases
}

fn replay(name: &str, timer: Timer, rows: &[Row], servers: &[Server], records: &[Record]) -> Case {
    let units: u64 = records.iter().map(|record| record[2]).sum();
    let size = format!("{} records, {} units", grouped(records.len() as u64), grouped(units));
    let name = name.to_string() + &beside(timer, servers);
    let work = Work::Replay { table: table(timer, rows, servers), script: script(records) };
    Case { group: "replay", name, size, work, status: 22, first: None, target: Some(2.0) }
}

/// Numbers are read in tables of 68 numbers with one extra byte. All are read and tested, and then comes refusal 4.
fn readings() -> Vec<Case> {
    vec![
        reading("numbers of 1 byte", [64, 127, 127, 127]),
        reading("numbers of 1 to 3 bytes", [64, 4_096, 16_384, 4_096]),
    ]
}

fn reading(name: &'static str, most: Row) -> Case {
    let mut random = Random(1);
    let count = NUMBERS.div_ceil(68);
    let tables = (0..count)
        .map(|_| {
            let p = 1 + random.below(most[1]);
            let timer = Timer { s: random.below(p), p };
            let mut row = || {
                let [x, y, d, c] = most.map(|m| 1 + random.below(m));
                // A row with c above d is refused with 16, so the larger of these two numbers is its d.
                [x, y, d.max(c), d.min(c)]
            };
            let rows: Vec<Row> = (0..16).map(|_| row()).collect();
            let mut bytes = table(timer, &rows, &[]);
            bytes.push(0);
            bytes
        })
        .collect();
    let size = format!("{} numbers", grouped(68 * count as u64));
    let work = Work::Verdicts(tables);
    Case { group: "reading", name: name.to_string(), size, work, status: 4, first: None, target: Some(1.5) }
}

/// So many jobs are pending all the time, in both forms of the calls.
fn ticks() -> Vec<Case> {
    let mut cases = Vec::new();
    for (form, said) in [(Form::ByValue, "by value"), (Form::Lent, "lent"), (Form::Live, "live")] {
        for servers in [&[][..], &HALF] {
            for pending in [1, 16, 64, 256] {
                cases.push(only_ticks(format!("tick, {said}, {pending} pending"), form, servers, pending));
            }
            for pending in [1, 16, 64, 256] {
                let name = format!("tick and release, {said}, {pending} pending");
                cases.push(ticks_and_releases(name, form, servers, pending));
            }
        }
        for pending in [1, 16, 64, 256] {
            cases.push(taken_ticks(format!("taken tick, {said}, {pending} pending"), form, pending));
        }
        for pending in [1, 16, 64, 255] {
            cases.push(releases_and_ends(format!("release and end, {said}, {pending} pending"), form, pending));
        }
    }
    cases
}

/// So many jobs are released. Then there are only ticks, and each gives a unit to the same job and does not finish it.
fn only_ticks(name: String, form: Form, servers: &[Server], pending: u64) -> Case {
    same_ticks(name, form, NO_TIMER, servers, pending, 4)
}

/// So many jobs are released. Then there are only ticks that the timer takes, and no job gets a unit.
fn taken_ticks(name: String, form: Form, pending: u64) -> Case {
    same_ticks(name, form, Timer { s: 4_095, p: 4_096 }, &[], pending, 7)
}

/// So many jobs of the most units are released, and the answer of each tick after that has this first word.
fn same_ticks(name: String, form: Form, timer: Timer, servers: &[Server], pending: u64, word: u64) -> Case {
    let each = pending.min(4);
    let rows = vec![[each, 4_096, 16_384, 4_096]; (pending / each) as usize];
    let releases = (0..pending).map(|i| ([1, in_turn(i, |i| i / each, &rows, servers), 4_096], 2));
    let ticks = (0..TICKS).map(|_| ([2, 0, 0], word));
    run(name, form, timer, &rows, servers, releases.chain(ticks).collect())
}

/// So many jobs are released. Then a tick, which finishes a job, and a release take turns. Beside servers the rows ask for
/// half of the ticks, and else for all.
fn ticks_and_releases(name: String, form: Form, servers: &[Server], pending: u64) -> Case {
    let each = pending.min(4);
    let y = if servers.is_empty() { pending } else { 2 * pending };
    let rows = vec![[each, y, y, 1]; (pending / each) as usize];
    let release = |i: u64| ([1, in_turn(i, |i| i % (pending / each), &rows, servers), 1], 2);
    let first = (0..pending).map(release);
    let turns = (pending..pending + TICKS).flat_map(|i| [([2, 0, 0], 5), release(i)]);
    run(name, form, NO_TIMER, &rows, servers, first.chain(turns).collect())
}

/// So many jobs are released. Then a release and the end of that job take turns, all at clock 0.
fn releases_and_ends(name: String, form: Form, pending: u64) -> Case {
    let rows = [[1, 1, 1, 1]];
    let first = (0..pending).map(|_| ([1, 0, 1], 2));
    let turns = (pending..pending + TICKS).flat_map(|serial| [([1, 0, 1], 2), ([3, serial, 0], 8)]);
    run(name, form, NO_TIMER, &rows, &[], first.chain(turns).collect())
}

/// Returns the row number of a job. Where there are servers every other job is an odd one, and the rest get a row each.
fn in_turn(job: u64, row: impl Fn(u64) -> u64, rows: &[Row], servers: &[Server]) -> u64 {
    match (servers.len() as u64, job % 2) {
        (0, _) => row(job),
        (_, 0) => row(job / 2),
        (serving, _) => rows.len() as u64 + job / 2 % serving,
    }
}

/// Returns the status that the host gets for what a trace says with this first word.
fn live_status(word: u64) -> u64 {
    match word {
        2 => 34,
        3..=5 => word + 32,
        7 | 8 => word + 31,
        _ => word,
    }
}

/// Each call comes with the first word of its answer.
fn run(name: String, form: Form, timer: Timer, rows: &[Row], servers: &[Server], played: Vec<([u64; 3], u64)>) -> Case {
    let size = format!("{} calls on a run of {} bytes", grouped(played.len() as u64), grouped(RUN_SIZE as u64));
    let status = 1 + played.len() as u32;
    let calls = played.iter().flat_map(|call| call.0).flat_map(u64::to_le_bytes).collect();
    let kinds = played.iter().map(|call| if form == Form::Live { live_status(call.1) } else { call.1 }).collect();
    let name = name + &beside(NO_TIMER, servers);
    let work = Work::Calls { form, table: table(timer, rows, servers), calls, kinds };
    let (group, target) = if form == Form::Live { ("live", Some(3.0)) } else { ("tick", None) };
    Case { group, name, size, work, status, first: None, target }
}

pub fn table(timer: Timer, rows: &[Row], servers: &[Server]) -> Vec<u8> {
    let mut bytes = Vec::new();
    for number in [timer.s, timer.p, rows.len() as u64] {
        spell(&mut bytes, number);
    }
    for &number in rows.iter().flatten() {
        spell(&mut bytes, number);
    }
    spell(&mut bytes, servers.len() as u64);
    for &number in servers.iter().flatten() {
        spell(&mut bytes, number);
    }
    bytes
}

pub fn script(records: &[Record]) -> Vec<u8> {
    let mut bytes = Vec::new();
    for &number in records.iter().flatten() {
        spell(&mut bytes, number);
    }
    bytes
}

fn spell(bytes: &mut Vec<u8>, mut number: u64) {
    while number >= 128 {
        bytes.push(number as u8 | 128);
        number >>= 7;
    }
    bytes.push(number as u8);
}

/// Writes 1048576 as 1,048,576.
pub fn grouped(number: u64) -> String {
    let digits = number.to_string();
    let mut said = String::new();
    for (i, digit) in digits.chars().enumerate() {
        if i > 0 && (digits.len() - i) % 3 == 0 {
            said.push(',');
        }
        said.push(digit);
    }
    said
}

pub struct Random(pub u64);

impl Random {
    pub fn below(&mut self, limit: u64) -> u64 {
        self.0 = self.0.wrapping_mul(6_364_136_223_846_793_005).wrapping_add(1_442_695_040_888_963_407);
        (self.0 >> 33) % limit
    }
}
