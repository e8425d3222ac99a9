//! Measures the proved program beside plain programs, and prints a Markdown table. Each pair gets the same input, by
//! turns in one run, and the best of several rounds counts. A pair is timed only after its answers were found the same.
//! Processor time is measured, so that other programs on the machine count for less.

mod cases;
mod clock;
mod events;
mod library;
mod plain;
mod quick;

use cases::{Case, Form, Work};
use std::env;
use std::hint::black_box;
use std::time::Duration;

/// A pair has at least this many rounds, and its rounds together take at least this time.
const ROUNDS: usize = 11;
const TOGETHER: Duration = Duration::from_millis(1_000);
/// A byte of a log buffer that still has this value was not written.
const UNTOUCHED: u8 = 0xA5;

/// The two calls of one of the programs, and its list of calls on a run: by value, lent, and live, as the host makes them. A
/// plain run is always changed in place, and only where it is live it is tested for soundness first.
struct Program {
    verdict: fn(&[u8], &mut [u8]) -> u32,
    replay: fn(&[u8], &[u8], &mut [u8], &mut [u8]) -> u32,
    trace: fn(&[u8], &[u8], &mut [u8]) -> u32,
    lent: fn(&[u8], &[u8], &mut [u8]) -> u32,
    live: fn(&[u8], &[u8], &mut [u8]) -> u32,
}

const LIBRARY: Program = Program {
    verdict: library::verdict,
    replay: library::replay,
    trace: library::trace,
    lent: library::lent,
    live: library::live,
};
const PLAIN: Program = Program {
    verdict: plain::verdict,
    replay: plain::replay,
    trace: plain::trace,
    lent: plain::trace,
    live: plain::live,
};

/// An answer in a list of calls on a run has this many bytes.
const ANSWER: usize = 32;

/// The answers of the calls: the status and the answer buffer of each, and the log. The answers of a list of calls on a
/// run stand in the log.
#[derive(PartialEq)]
struct Said {
    answers: Vec<(u32, [u8; 16])>,
    log: Vec<u8>,
}

impl Said {
    fn nothing(work: &Work) -> Said {
        let (calls, room) = match work {
            Work::Verdicts(tables) => (tables.len(), 0),
            Work::Replay { script, .. } => (1, 10 * script.len()),
            Work::Calls { kinds, .. } => (1, ANSWER * (1 + kinds.len())),
        };
        Said { answers: vec![(0, [UNTOUCHED; 16]); calls], log: vec![UNTOUCHED; room] }
    }
}

fn main() {
    let words: Vec<String> = env::args().skip(1).collect();
    let asked = env::var("JYRMEKKO_ROUNDS").ok();
    let asked = asked.map(|said| said.parse().ok().filter(|&n| n > 0).expect("JYRMEKKO_ROUNDS is a number above 0"));
    let rounds = asked.unwrap_or(ROUNDS);
    match words.first().map(String::as_str) {
        Some("events") => return events::measure(&words[1..], rounds),
        Some("quick") => return quick::measure(&words[1..], asked.unwrap_or(quick::ROUNDS)),
        _ => (),
    }
    println!("| | case | size | proved, ms | plain, ms | ratio | at most | |");
    println!("|---|---|---|--:|--:|--:|--:|---|");
    let cases = cases::all();
    // A word that is a group's chooses that group alone.
    let chooses = |word: &String, case: &Case| match cases.iter().any(|other| other.group == word) {
        true => case.group == word,
        false => case.name.contains(word.as_str()),
    };
    for case in &cases {
        if words.is_empty() || words.iter().any(|word| chooses(word, case)) {
            println!("{}", measure(case, rounds));
        }
    }
    println!("\nBest of at least {rounds} rounds, by turns; processor time.");
}

/// Measures one case, and returns its line of the table.
fn measure(case: &Case, rounds: usize) -> String {
    let mut proved = Said::nothing(&case.work);
    let mut plain = Said::nothing(&case.work);
    make(&LIBRARY, &case.work, &mut proved);
    make(&PLAIN, &case.work, &mut plain);
    let Case { group, name, size, target, .. } = case;
    assert!(proved == plain, "{group}, {name}: the answers differ");
    for (status, answer) in &proved.answers {
        let first = first_word(answer);
        let expected = *status == case.status && case.first.is_none_or(|number| number == first);
        assert!(expected, "{group}, {name}: status {status} with {first}");
    }
    if let Work::Calls { kinds, .. } = &case.work {
        let found = proved.log.chunks(ANSWER).skip(1).map(first_word);
        assert!(found.eq(kinds.iter().copied()), "{group}, {name}: a call answered otherwise");
    }

    let mut best = [Duration::MAX; 2];
    let mut together = Duration::ZERO;
    let mut done = 0;
    while done < rounds || together < TOGETHER {
        let taken = [time(&LIBRARY, &case.work, &mut proved), time(&PLAIN, &case.work, &mut plain)];
        best = [best[0].min(taken[0]), best[1].min(taken[1])];
        together += taken[0] + taken[1];
        done += 1;
    }
    assert!(proved == plain, "{group}, {name}: the answers differ after the rounds");
    let [proved, plain] = best.map(|duration| duration.as_secs_f64() * 1e3);
    let ratio = proved / plain;
    let target = match target {
        Some(most) if ratio <= *most => format!("{most:.1} | met"),
        Some(most) => format!("{most:.1} | **missed**"),
        None => String::from("|"),
    };
    let each = match &case.work {
        Work::Calls { kinds, .. } => {
            let [proved, plain] = [proved, plain].map(|time| time * 1e3 / kinds.len() as f64);
            format!("{proved:.2} and {plain:.3} µs a call ")
        }
        _ => String::new(),
    };
    format!("| {group} | {name} | {size} | {proved:.2} | {plain:.2} | {ratio:.2} | {target} {each}|")
}

fn first_word(words: &[u8]) -> u64 {
    u64::from_le_bytes(words[..8].try_into().unwrap())
}

fn time(program: &Program, work: &Work, said: &mut Said) -> Duration {
    let start = clock::now();
    make(program, black_box(work), said);
    black_box(said);
    clock::now() - start
}

/// Makes the calls of one case on one program.
fn make(program: &Program, work: &Work, said: &mut Said) {
    match work {
        Work::Verdicts(tables) => {
            for (table, (status, answer)) in tables.iter().zip(&mut said.answers) {
                *status = black_box(program.verdict)(table, answer);
            }
        }
        Work::Replay { table, script } => {
            let (status, answer) = &mut said.answers[0];
            *status = black_box(program.replay)(table, script, &mut said.log, answer);
        }
        Work::Calls { form, table, calls, .. } => {
            let play = match form {
                Form::ByValue => program.trace,
                Form::Lent => program.lent,
                Form::Live => program.live,
            };
            said.answers[0].0 = black_box(play)(table, calls, &mut said.log);
        }
    }
}
