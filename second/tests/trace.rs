//! Compares a run's single calls, release, tick and end, answer by answer.

mod support;

use second::refusal::Reason;
use second::run::MOST_PENDING;
use second::table::{MOST_ODD_COST, MOST_ROWS, MOST_SERVERS};
use second::trace::{kind, trace, Answer, Call};
use std::collections::BTreeSet;
use support::case::hex;
use support::ends::{self, Calls};
use support::random::Random;
use support::tables::Table;
use support::trace::{by_library, bytes_of, good_release, random_release};
use support::{scripts, settings, tables};

/// There are at least this many traces, since with fewer some answers might not be met.
const TRACES: u64 = 20_000;

/// One trace in so many takes about all places before it goes on.
const FILLED: u64 = 12;

/// One trace in so many ends no job.
const WITHOUT_ENDS: u64 = 3;

/// One trace in so many releases and ends a job so often at one clock that all places would be taken, were they not
/// freed.
const ENDED_AT_ONE_CLOCK: u64 = 20;

/// Makes releases, ticks and ends by turns of random length, so that places fill up and empty again.
fn random_calls(table: &Table, spelled: &[u8], random: &mut Random) -> Vec<Call> {
    let mut calls = Calls::on(spelled);
    let turns = if random.one_in(WITHOUT_ENDS) { 2 } else { 5 };
    if random.one_in(FILLED) {
        for _ in 0..scripts::near_the_last_place(random) {
            calls.push(good_release(table, random));
        }
    }
    if turns > 2 && random.one_in(ENDED_AT_ONE_CLOCK) {
        for _ in 0..MOST_PENDING as u64 + random.below(50) {
            calls.push_release_and_end(good_release(table, random));
        }
        calls.push(good_release(table, random));
    }
    for _ in 0..random.within(1, 12) {
        let turn = random.below(turns);
        for _ in 0..random.pick(&[1, 3, 10, 40]) {
            match turn {
                0 => calls.push(random_release(table, random)),
                1 => calls.push(Call::Tick),
                2 => calls.push_end(random),
                3 => calls.push_release_and_end(random_release(table, random)),
                _ if random.one_in(2) => calls.push_end(random),
                _ => calls.push(if random.one_in(2) { good_release(table, random) } else { Call::Tick }),
            }
        }
    }
    calls.made()
}

/// Returns how many jobs were pending at a time in a trace, at most.
fn most_pending(answers: &[Answer]) -> usize {
    let mut pending = 0;
    let mut most = 0;
    for answer in answers {
        match answer[0] {
            kind::RELEASED => pending += 1,
            kind::FINISHED | kind::ENDED => pending -= 1,
            _ => {}
        }
        most = most.max(pending);
    }
    most
}

/// What was met of the ticks that were taken: whether a job was pending, and whether one became late.
fn taken_ticks(answers: &[Answer]) -> BTreeSet<(bool, bool)> {
    let mut pending = 0;
    let mut met = BTreeSet::new();
    for answer in answers {
        match answer[0] {
            kind::RELEASED => pending += 1,
            kind::FINISHED | kind::ENDED => pending -= 1,
            kind::TAKEN => drop(met.insert((pending > 0, answer[3] > 0))),
            _ => {}
        }
    }
    met
}

/// What was met of odd jobs. A refused one shows that it leaves the server's last due time alone only where that server's
/// next one is accepted, and due later than it would be as the first.
#[derive(Clone, Copy, Debug, PartialEq, Eq, PartialOrd, Ord)]
enum OddJob {
    /// An odd job was accepted.
    Released,
    /// One of the highest cost was accepted.
    HighestCost,
    /// A release with this refusal came between two of the same server that were accepted.
    RefusedBetween(u64),
}

fn odd_jobs(table: &Table, calls: &[Call], answers: &[Answer]) -> BTreeSet<OddJob> {
    let mut met = BTreeSet::new();
    let mut last = vec![0; table.servers.len()];
    let mut refused = vec![BTreeSet::new(); table.servers.len()];
    let mut clock = 0;
    for (call, answer) in calls.iter().zip(&answers[1..]) {
        if *call == Call::Tick {
            clock += 1;
        }
        let Call::Release { row, cost } = *call else { continue };
        if row < table.rows.len() as u64 || row >= table.row_numbers() {
            continue;
        }
        let server = row as usize - table.rows.len();
        match *answer {
            [kind::RELEASED, _, due, _] => {
                met.insert(OddJob::Released);
                if cost == MOST_ODD_COST {
                    met.insert(OddJob::HighestCost);
                }
                if last[server] > clock {
                    met.append(&mut refused[server]);
                }
                refused[server].clear();
                last[server] = due;
            }
            [_, number, _, _] => drop(refused[server].insert(OddJob::RefusedBetween(number))),
        }
    }
    met
}

#[test]
fn single_calls() {
    let seed = settings::number("JYRMEKKO_SEED", 1);
    let mut met = BTreeSet::new();
    let mut started_rows = BTreeSet::new();
    let mut started_servers = BTreeSet::new();
    let mut odd = BTreeSet::new();
    let mut ended = BTreeSet::new();
    let mut pending_jobs = BTreeSet::new();
    let mut taken = BTreeSet::new();
    let mut places_of_3 = BTreeSet::new();
    for index in 0..settings::number("JYRMEKKO_COMPARISONS", 0).max(settings::number("JYRMEKKO_TRACES", TRACES)) {
        let mut random = Random::of(seed, index);
        let (lent, table) = tables::to_start(&mut random);
        let calls = random_calls(&lent, &table, &mut random);
        let expected = trace(&table, &calls);
        let (count, found) = by_library(&table, &calls, &mut random);
        assert!(
            count as usize == expected.len() && found == bytes_of(expected.iter().flatten().copied()),
            "MISMATCH in trace {index}, seed {seed}\ntable {}\ncalls {calls:?}\nexpected {expected:?}\nfound {count}, {}",
            hex(&table),
            hex(&found)
        );
        if expected[0][0] == kind::STARTED {
            started_rows.insert(tables::row_count(&table).unwrap());
            started_servers.insert(tables::server_count(&table).unwrap());
            if table == lent.spell() {
                odd.extend(odd_jobs(&lent, &calls, &expected));
                ended.extend(ends::met(&lent, &calls, &expected));
            }
        }
        if expected[0][..2] == [kind::REFUSED, Reason::ValueOutOfRange.number().into()] {
            places_of_3.insert(expected[0][2]);
        }
        taken.extend(taken_ticks(&expected));
        pending_jobs.insert(most_pending(&expected));
        met.extend(expected.iter().map(|answer| (answer[0], if answer[0] == kind::REFUSED { answer[1] } else { 0 })));
    }
    for kind in [kind::STARTED, kind::RELEASED, kind::IDLE, kind::RAN, kind::FINISHED, kind::TAKEN, kind::ENDED] {
        assert!(met.contains(&(kind, 0)), "no answer of kind {kind} was met");
    }
    for number in [1, 2, 3, 4, 5, 6, 7, 8, 16, 17] {
        assert!(met.contains(&(kind::REFUSED, number)), "no refusal {number}");
    }
    for place in [0, 1, 2] {
        assert!(
            places_of_3.contains(&place),
            "no refusal 3 at {place}, where s starts or p after a short s or a longer"
        );
    }
    assert_eq!(taken, BTreeSet::from([(false, false), (true, false), (true, true)]), "a job pending, and one late");
    let refused_between = [7, 8].map(OddJob::RefusedBetween);
    let wanted: BTreeSet<OddJob> = [OddJob::Released, OddJob::HighestCost].into_iter().chain(refused_between).collect();
    assert_eq!(odd, wanted, "odd jobs");
    assert_eq!(ended, BTreeSet::from(ends::ALL), "jobs ended early");
    for servers in [0, 1, MOST_SERVERS - 1, MOST_SERVERS] {
        assert!(started_servers.contains(&servers), "no run was started on {servers} servers");
    }
    for rows in [MOST_ROWS - 1, MOST_ROWS] {
        assert!(started_rows.contains(&rows), "no run was started on {rows} rows");
    }
    for pending in [MOST_PENDING - 1, MOST_PENDING] {
        assert!(pending_jobs.contains(&pending), "no trace had {pending} jobs pending at most");
    }
}

/// Release and end, 300 times at clock 0, and then a release: all are accepted (11.108). The answers are written out here,
/// so that both programs are held to them.
#[test]
fn release_and_end_300_times_at_clock_0() {
    let mut random = Random::of(settings::number("JYRMEKKO_SEED", 1), 0);
    for (rows, servers) in [(vec![[1, 1, 1, 1]], vec![]), (vec![], vec![[1, 1]])] {
        let table = tables::spell_all([0, 1], &rows, &servers);
        let mut calls = vec![];
        let mut wanted: Vec<Answer> = vec![[kind::STARTED, 0, 0, 0]];
        for serial in 0..300 {
            calls.extend([Call::Release { row: 0, cost: 1 }, Call::End { serial }]);
            wanted.extend([[kind::RELEASED, serial, serial + 1, 0], [kind::ENDED, 0, 0, 0]]);
        }
        calls.extend([Call::Release { row: 0, cost: 1 }, Call::Tick]);
        wanted.extend([[kind::RELEASED, 300, 301, 0], [kind::FINISHED, 300, 0, 0]]);
        assert_eq!(trace(&table, &calls), wanted);
        let (count, found) = by_library(&table, &calls, &mut random);
        assert_eq!((count as usize, found), (wanted.len(), bytes_of(wanted.iter().flatten().copied())));
    }
}
