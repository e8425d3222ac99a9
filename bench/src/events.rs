//! Replays beside two other programs: the plain one, which goes tick by tick, and the one by events. `bench/run events`
//! measures them, and further words choose the cases whose name has one of them. All answers and logs have to be the same.

use crate::cases::{beside, busy_records, grouped, script, sparse_records, table};
use crate::cases::{Random, Record, Row, Server, Timer, NO_TIMER, WHOLE};
use crate::{clock, library, plain};
use std::hint::black_box;
use std::time::Duration;

/// The rounds of a pair together take at least this time.
const TOGETHER: Duration = Duration::from_millis(500);
/// A program that goes tick by tick gets a shorter script where the ticks times the jobs to look at would be more than this.
const LOOKS: u64 = 500_000_000;
/// A byte of a log buffer that still has this value was not written.
const UNTOUCHED: u8 = 0xA5;

const RECORDS: u64 = 100_000;

struct Case {
    name: String,
    cost: u64,
    pending: u64,
    table: Vec<u8>,
    records: Vec<Record>,
}

pub fn measure(words: &[String], rounds: usize) {
    println!("| case | records | proved, ms | by events, ms | ratio | at most | | tick by tick to proved |");
    println!("|---|--:|--:|--:|--:|--:|---|--:|");
    for case in all() {
        if words.is_empty() || words.iter().any(|word| case.name.contains(word.as_str())) {
            println!("{}", line(&case, rounds));
        }
    }
    println!("\nBest of at least {rounds} rounds, by turns; processor time.");
}

fn all() -> Vec<Case> {
    let timers = [NO_TIMER, Timer { s: 1, p: 10 }, Timer { s: 3, p: 4 }];
    let mut cases = Vec::new();
    for timer in timers {
        for cost in [1, 16, 4_096] {
            for pending in [1, 4, 64, 256] {
                cases.push(busy(timer, pending, cost, RECORDS));
            }
            for pending in [1, 4, 64, 256] {
                cases.push(sparse(timer, pending, cost));
            }
        }
        for pending in [4, 64, 200] {
            cases.push(mixed(timer, &[], pending));
        }
    }
    for pending in [4, 64, 256] {
        cases.push(busy(NO_TIMER, pending, 1, 1_000_000));
    }
    cases.push(busy(timers[1], 64, 1, 1_000_000));
    for cost in [1, 16] {
        for pending in [1, 64, 256] {
            cases.push(odd_busy(pending, cost));
        }
        for pending in [1, 64, 256] {
            cases.push(odd_sparse(pending, cost));
        }
    }
    // Each server can give what the mixed jobs ask of it, a sixteenth, or more.
    let servers: Vec<Server> = (4..12).map(|a| [a, 64]).collect();
    for pending in [4, 64, 200] {
        cases.push(mixed(NO_TIMER, &servers, pending));
    }
    cases
}

/// At most four jobs of each row are pending, and so many in all. The rows ask for all free ticks, or for more where y and d
/// would be above their limits.
fn rows(timer: Timer, pending: u64, cost: u64) -> Vec<Row> {
    let each = pending.min(4);
    let y = timer.whole_periods(pending * cost);
    vec![[each, y.min(4_096), y.clamp(cost, 16_384), cost]; (pending / each) as usize]
}

/// So many jobs are released at once, and then one more for each that finishes.
fn busy(timer: Timer, pending: u64, cost: u64, records: u64) -> Case {
    let rows = rows(timer, pending, cost);
    let records = busy_records(timer, rows.len() as u64, pending, cost, records);
    case("busy", timer, pending, cost, &rows, &[], records)
}

/// So many jobs are released at once, and then nothing is pending for most of the time.
fn sparse(timer: Timer, pending: u64, cost: u64) -> Case {
    let rows = rows(timer, pending, cost);
    let apart = 1_000 + 2 * timer.whole_periods(pending * cost);
    let records = sparse_records(apart, rows.len() as u64, pending, cost, RECORDS);
    case("sparse", timer, pending, cost, &rows, &[], records)
}

/// As `busy`, with odd jobs alone.
fn odd_busy(pending: u64, cost: u64) -> Case {
    let records = busy_records(NO_TIMER, WHOLE.len() as u64, pending, cost, RECORDS);
    case("busy", NO_TIMER, pending, cost, &[], &WHOLE, records)
}

/// As `sparse`, with odd jobs alone.
fn odd_sparse(pending: u64, cost: u64) -> Case {
    let records = sparse_records(1_000 + 2 * pending * cost, WHOLE.len() as u64, pending, cost, RECORDS);
    case("sparse", NO_TIMER, pending, cost, &[], &WHOLE, records)
}

/// Each row has another d, and each job another cost, of 16 on the average. So the jobs don't finish in the order of their
/// release. A job is released whenever as many units as its cost have been given, so that about so many are pending. Where
/// there are servers every other job is an odd one.
fn mixed(timer: Timer, servers: &[Server], pending: u64) -> Case {
    let mut random = Random(1);
    let each = pending.min(4);
    let mut row = || [each, 1_024, 512 + random.below(15_872), 31];
    let rows: Vec<Row> = (0..pending / each).map(|_| row()).collect();
    let (mut asked, mut now) = (0, 0);
    let mut record = |i| {
        let cost = 1 + random.below(31);
        if i >= pending {
            asked += cost;
        }
        let gap = timer.after(asked) - now;
        now += gap;
        let row = match i % 2 {
            1 if !servers.is_empty() => rows.len() as u64 + random.below(servers.len() as u64),
            _ => random.below(rows.len() as u64),
        };
        [gap, row, cost]
    };
    let records = (0..RECORDS).map(&mut record).collect();
    case("mixed", timer, pending, 16, &rows, servers, records)
}

fn case(
    shape: &str,
    timer: Timer,
    pending: u64,
    cost: u64,
    rows: &[Row],
    servers: &[Server],
    records: Vec<Record>,
) -> Case {
    let name = format!("{shape}, {pending} pending, cost {}{}", grouped(cost), beside(timer, servers));
    Case { name, cost, pending, table: table(timer, rows, servers), records }
}

/// What one of the programs said, with its log at the start of a buffer.
struct Said {
    status: u32,
    answer: [u8; 16],
    log: Vec<u8>,
}

impl Said {
    fn in_buffer(script: &[u8]) -> Said {
        Said { status: 0, answer: [UNTOUCHED; 16], log: vec![UNTOUCHED; 10 * script.len()] }
    }

    fn in_vector() -> Said {
        Said { status: 0, answer: [UNTOUCHED; 16], log: Vec::new() }
    }

    /// Returns the status, the answer and the log, without the bytes past its end, which have to be untouched.
    fn outcome(&self) -> (u32, [u8; 16], &[u8]) {
        assert!(self.status == 22 || self.status == 23, "a replay has status {}", self.status);
        let length = u64::from_le_bytes(self.answer[..8].try_into().unwrap()) as usize;
        let (log, rest) = self.log.split_at(length);
        assert!(rest.iter().all(|&byte| byte == UNTOUCHED), "a byte past the log was written");
        (self.status, self.answer, log)
    }
}

/// Measures one case, and returns its line of the table.
fn line(case: &Case, rounds: usize) -> String {
    let Case { name, cost, pending, table, records } = case;
    let whole = script(records);
    let mut proved = Said::in_buffer(&whole);
    let mut events = Said::in_vector();
    let by_library = |script: &[u8], said: &mut Said| {
        said.status = black_box(library::replay)(table, script, &mut said.log, &mut said.answer);
    };
    let by_events = |script: &[u8], said: &mut Said| {
        let room = 10 * script.len();
        said.status = black_box(plain::replay_by_events)(table, script, &mut said.log, room, &mut said.answer);
    };
    let by_ticks = |script: &[u8], said: &mut Said| {
        said.status = black_box(plain::replay)(table, script, &mut said.log, &mut said.answer);
    };
    by_library(&whole, &mut proved);
    by_events(&whole, &mut events);
    assert!(proved.outcome() == events.outcome(), "{name}: the answers differ");

    let mut best = [Duration::MAX; 2];
    let mut together = Duration::ZERO;
    let mut done = 0;
    while done < rounds || together < TOGETHER {
        let taken = [time(|| by_library(&whole, &mut proved)), time(|| by_events(&whole, &mut events))];
        best = [best[0].min(taken[0]), best[1].min(taken[1])];
        together += taken[0] + taken[1];
        done += 1;
    }
    assert!(proved.outcome() == events.outcome(), "{name}: the answers differ after the rounds");

    // The program that goes tick by tick is compared on the start of the script, where all of it would take too long.
    let few = (LOOKS / (cost * pending)).clamp(4 * pending, records.len() as u64) as usize;
    let short = script(&records[..few]);
    let mut proved = Said::in_buffer(&short);
    let mut ticks = Said::in_buffer(&short);
    let mut least = [Duration::MAX; 2];
    for _ in 0..3 {
        let taken = [time(|| by_library(&short, &mut proved)), time(|| by_ticks(&short, &mut ticks))];
        least = [least[0].min(taken[0]), least[1].min(taken[1])];
    }
    assert!(proved.outcome() == ticks.outcome(), "{name}: the answers differ, tick by tick");

    let [proved, events] = best.map(|duration| duration.as_secs_f64() * 1e3);
    let ratio = proved / events;
    let most = if *cost >= 16 { 1.0 } else { 1.3 };
    let met = if ratio <= most { "met" } else { "**missed**" };
    let slower = least[1].as_secs_f64() / least[0].as_secs_f64();
    let count = grouped(records.len() as u64);
    format!("| {name} | {count} | {proved:.2} | {events:.2} | {ratio:.2} | {most:.1} | {met} | {slower:.1} |")
}

fn time(call: impl FnOnce()) -> Duration {
    let start = clock::now();
    call();
    clock::now() - start
}
