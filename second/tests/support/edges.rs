//! The named cases: every example, and each limit from both sides. They reach every status without any luck.

use super::case::Case;
use super::damage::replaced;
use super::scripts::{self, Record};
use super::tables::{self, Row};
use super::{hopeless, servers, timers};
use second::run::{LAST_TICK, MOST_PENDING};
use second::table::{self, MOST_C, MOST_D, MOST_ROWS, MOST_X, MOST_Y};
use second::{numbers, replay};

const V3: [Row; 2] = [[1, 4, 4, 2], [1, 6, 6, 3]];
const R1: [Record; 3] = [[0, 0, 2], [0, 1, 3], [4, 0, 2]];

/// Each case is made when it is asked for. So a table is judged before a replay on it is tried, which would not end if a
/// timer that takes every tick were accepted.
pub fn all() -> impl Iterator<Item = Case> {
    let of_tables = edge_tables().into_iter().flat_map(|table| {
        let judged = Case::verdict(table.clone(), vec![0x5a; 16]);
        std::iter::once(judged).chain(std::iter::once_with(move || replays(&table, &scripts::spell(&R1))).flatten())
    });
    let without_timer = edge_scripts().into_iter().map(|(rows, script)| (tables::spell(&rows), script));
    let of_scripts = without_timer
        .chain(timers::edge_scripts())
        .chain(servers::edge_scripts())
        .flat_map(|(table, script)| replays(&table, &script));
    of_tables.chain(of_scripts).chain(other_answer_sizes())
}

fn other_answer_sizes() -> Vec<Case> {
    let mut cases = vec![];
    for size in [0, 1, 8, 15, 17, 32] {
        let refused = [one_row_too_many(), vec![], vec![1, 1, 0, 0], vec![0, 0, 0, 0], vec![0, 1, 0, 9]];
        for table in refused.into_iter().chain([tables::spell(&V3)]) {
            cases.push(Case::verdict(table.clone(), vec![0x5a; size]));
            cases.push(Case::replay(table, scripts::spell(&R1), vec![0xa5; 20], vec![0x5a; size]));
        }
    }
    cases
}

fn one_row_too_many() -> Vec<u8> {
    tables::spell_numbers(&[0, 1, MOST_ROWS + 1])
}

/// Makes one replay with each size of log buffer that matters.
fn replays(table: &[u8], script: &[u8]) -> Vec<Case> {
    let length =
        table::read(table).and_then(|table| replay::replay(&table, script)).map_or(10, |done| done.log().len());
    let mut sizes = vec![0, length.saturating_sub(9), length.saturating_sub(1), length, length + 1, 10 * script.len()];
    sizes.sort();
    sizes.dedup();
    let case = |size| Case::replay(table.to_vec(), script.to_vec(), vec![0xa5; size], vec![0x5a; 16]);
    sizes.into_iter().map(case).collect()
}

fn edge_tables() -> Vec<Vec<u8>> {
    let v3 = tables::spell(&V3);
    let mut tables: Vec<Vec<u8>> = edge_rows().iter().map(|rows| tables::spell(rows)).collect();
    tables.extend((0..v3.len()).map(|cut| v3[..cut].to_vec()));
    tables.extend((0..v3.len()).flat_map(|place| misspellings().map(|bad| replaced(&v3, place, &bad))));
    let counts = [MOST_ROWS, MOST_ROWS + 1, 127, 128, 1 << 32, 1 << 41, numbers::LARGEST];
    tables.extend(counts.map(|count| tables::spell_numbers(&[0, 1, count])));
    for extra in [&[0x00][..], &[0x80], &[0x80, 0x00], &[1, 1, 1, 1]] {
        tables.push([&v3, extra].concat());
        tables.push([&tables::spell(&[[1, 1_141, 1, 1], [1, 919, 1, 1]]), extra].concat());
        tables.push([&tables::spell(&[[1, 1, 1, 1]; MOST_ROWS as usize]), extra].concat());
    }
    let full = tables::spell(&[[1, 300, 300, 4]; MOST_ROWS as usize]);
    tables.extend((full.len() - 6..full.len()).map(|cut| full[..cut].to_vec()));
    tables.extend(hopeless::edge_tables());
    tables.extend(timers::edge_tables());
    tables.extend(servers::edge_tables());
    tables
}

fn edge_rows() -> Vec<Vec<Row>> {
    let mut lists = vec![
        vec![],
        vec![[1, 2, 6, 1]],
        V3.to_vec(),
        vec![[1, 4, 3, 2], [1, 6, 5, 3]],
        vec![[3, 6, 6, 2]],
        vec![[3, 6, 5, 2]],
        vec![[2, 1, 1, 1]],
        vec![[1, 2, 10, 3]],
        // These have the longest period that is accepted, and the shortest that is refused.
        vec![[1, 1_023, 1_023, 500], [1, 1_025, 1_025, 500]],
        vec![[1, 1_023, 1_023, 512], [1, 1_025, 1_025, 512]],
        vec![[1, 1_141, 1, 1], [1, 919, 1, 1]],
        vec![[1, 919, 1, 1], [1, 1_141, 1, 1]],
        vec![[1, 4_093, 1, 1]; MOST_ROWS as usize],
        [4_093, 4_091, 4_079, 4_073, 4_057, 4_051, 4_049, 4_027].map(|y| [1, y, 1, 1]).to_vec(),
        // These have witnesses far past H + the largest d.
        vec![[1, 2, 1_000, 3]],
        vec![[1, 100, 16_384, 101]],
        vec![[1, 30, 1_000, 30], [1, 64, 1_000, 1]],
        vec![[1, 255, 4_000, 255], [1, 256, 4_000, 1]],
        // The sum of x * c / y is exactly 1. Each d is y, or one tick less.
        vec![[1, 2, 2, 1], [1, 4, 4, 2]],
        vec![[1, 2, 2, 1], [1, 4, 3, 2]],
        vec![[1, 2, 1, 1], [1, 4, 4, 2]],
    ];
    lists.extend(rows_near_their_limit());
    let limits = [MOST_X, MOST_Y, MOST_D, MOST_C];
    for (index, most) in limits.into_iter().enumerate() {
        for value in [0, 1, most - 1, most, most + 1, most + (1 << 8), most + (1 << 16), most + (1 << 32), 1 << 41] {
            for d in [8, MOST_D] {
                let mut row = [1, 8, d, 1];
                row[index] = value;
                lists.push(vec![row]);
                lists.push(vec![[1, 4, 4, 1], row]);
            }
        }
    }
    lists
}

/// One row less than the limit of rows, as many, and one more. There are lists for each verdict and each refusal.
fn rows_near_their_limit() -> Vec<Vec<Row>> {
    let most = MOST_ROWS as usize;
    let mut lists = vec![];
    for count in [most - 1, most, most + 1] {
        let y = MOST_ROWS;
        // These take the whole processor where there are as many as the limit, and are due at y, or one tick before it.
        lists.push(vec![[1, y, y, 1]; count]);
        lists.push(vec![[1, y, y - 1, 1]; count]);
        lists.push(vec![[1, y, 1, 1]; count]);
        lists.push(vec![[MOST_X, MOST_Y, MOST_D, MOST_C]; count]);
        // These are feasible or overloaded by the last row alone.
        for c in [1, 2] {
            let mut rows = vec![[1, y, y, 1]; count];
            rows[count - 1] = [1, 4 * y, y, c];
            lists.push(rows);
        }
        // A value out of its range in the last row, and a period that the last row makes too long.
        for last in [[1, 919, 1, 0], [1, 919, 1, 1]] {
            let mut rows = vec![[1, 1_141, 1, 1]; count];
            rows[count - 1] = last;
            lists.push(rows);
        }
    }
    // These have the longest period that is accepted, and no length of it fails.
    lists.push((0..most).map(|row| [1, [1_023, 1_025][row % 2], [1_023, 1_025][row % 2], 15]).collect());
    lists
}

fn misspellings() -> [Vec<u8>; 8] {
    [
        vec![0x80, 0x00],
        vec![0x81, 0x80, 0x00],
        vec![0x81, 0x80, 0x80, 0x80, 0x80, 0x00],
        vec![0x81, 0x80, 0x80, 0x80, 0x80, 0x80, 0x00],
        vec![0x81, 0x80, 0x80, 0x80, 0x80, 0x80, 0x01],
        vec![0xff, 0xff, 0xff, 0xff, 0xff, 0xff],
        // These are rightly spelled, but far out of range.
        vec![0xff, 0xff, 0xff, 0xff, 0xff, 0x7f],
        vec![0x80, 0x80, 0x80, 0x80, 0x80, 0x01],
    ]
}

fn edge_scripts() -> Vec<(Vec<Row>, Vec<u8>)> {
    let mut list: Vec<(Vec<Row>, Vec<u8>)> =
        edge_records().into_iter().map(|(rows, records)| (rows, scripts::spell(&records))).collect();
    let r1 = scripts::spell(&R1);
    for place in 0..r1.len() {
        list.push((V3.to_vec(), r1[..place].to_vec()));
        list.extend(misspellings().map(|bad| (V3.to_vec(), replaced(&r1, place, &bad))));
    }
    let past_the_last_tick = scripts::spell(&[[0, 0, 1], [LAST_TICK + 1, 0, 1]]);
    list.extend((3..past_the_last_tick.len()).map(|cut| (V3.to_vec(), past_the_last_tick[..cut].to_vec())));
    let at_the_last_tick = scripts::spell(&[[0, 0, 1], [LAST_TICK, 0, 1]]);
    list.extend((3..at_the_last_tick.len()).map(|cut| (V3.to_vec(), at_the_last_tick[..cut].to_vec())));
    list
}

fn edge_records() -> Vec<(Vec<Row>, Vec<Record>)> {
    let d1 = vec![[1, 2, 6, 6]];
    let d2 = vec![[3, 6, 6, 6]];
    let v2 = vec![[1, 2, 6, 1]];
    // The jobs of a burst come from these rows in turn, so that all places are taken before the spacing by y sets in.
    let wide = vec![[MOST_X, 1, 8, 8]; MOST_PENDING / MOST_X as usize];
    let in_time = vec![[MOST_X, 1, 2 * MOST_PENDING as u64, 9]; wide.len()];
    let and_one_due_later = [&wide[..], &[[1, 1, 9, 9]]].concat();
    let every_row = vec![[4, MOST_ROWS, MOST_ROWS, 1]; MOST_ROWS as usize];
    let crowded = vec![[2, 1, 2, 2]];
    let as_in_the_paper = vec![[0, 0, 1], [0, 0, 1], [0, 0, 1], [3, 0, 1], [0, 0, 1], [3, 0, 1]];
    let burst_of_rows = |rows: &[Row], count: usize, gap| {
        let mut records: Vec<Record> = (0..count).map(|job| [0, (job % rows.len()) as u64, 1]).collect();
        records[0][0] = gap;
        records
    };
    let burst = |count, gap| burst_of_rows(&wide, count, gap);
    let then = |mut records: Vec<Record>, record| {
        records.push(record);
        records
    };
    vec![
        (vec![], vec![]),
        (vec![], vec![[0, 0, 1]]),
        (V3.to_vec(), vec![]),
        (d1.clone(), as_in_the_paper.clone()),
        (d2, as_in_the_paper),
        (d1, vec![[0, 0, 1], [20, 0, 1]]),
        // These have row numbers and costs past their limits, some of them far enough to look right in fewer bits.
        (v2.clone(), vec![[0, 1, 1]]),
        (v2.clone(), vec![[0, 1 << 8, 1]]),
        (v2.clone(), vec![[0, 1 << 32, 1]]),
        (v2.clone(), vec![[0, 0, 0]]),
        (v2.clone(), vec![[0, 0, 2]]),
        (v2.clone(), vec![[0, 0, 257]]),
        (v2.clone(), vec![[0, 0, (1 << 32) + 1]]),
        // These take the last place, one place more, and the place that a finished job frees.
        (wide.clone(), burst(MOST_PENDING - 1, 0)),
        (wide.clone(), burst(MOST_PENDING, 0)),
        (wide.clone(), burst(MOST_PENDING + 1, 0)),
        (wide.clone(), burst(2 * MOST_PENDING, 0)),
        (vec![[MOST_X, 1, 8, 8]], vec![[0, 0, 1]; MOST_X as usize + 1]),
        (vec![[1, 1, 8, 8]], vec![[0, 0, 1]; MOST_PENDING]),
        (vec![[1, 1, 8, 8]], vec![[0, 0, 1]; MOST_PENDING + 1]),
        (in_time.clone(), burst(MOST_PENDING, 0)),
        (in_time.clone(), burst(MOST_PENDING + 1, 0)),
        (in_time, then(burst(MOST_PENDING, 0), [1, 0, 1])),
        (wide.clone(), then(burst(MOST_PENDING, 0), [1, 0, 1])),
        (wide.clone(), then(then(burst(MOST_PENDING, 0), [1, 0, 1]), [0, 0, 1])),
        (wide.clone(), then(burst(MOST_PENDING, LAST_TICK - 8), [0, 0, 1])),
        (wide.clone(), then(burst(MOST_PENDING, LAST_TICK - 7), [0, 0, 1])),
        (and_one_due_later.clone(), then(burst(MOST_PENDING, LAST_TICK - 8), [0, wide.len() as u64, 1])),
        (and_one_due_later, then(burst(MOST_PENDING - 1, LAST_TICK - 8), [0, wide.len() as u64, 1])),
        // Every row of the longest table has jobs, and no row comes after the last.
        (every_row.clone(), burst_of_rows(&every_row, MOST_PENDING, 0)),
        (every_row.clone(), burst_of_rows(&every_row, MOST_PENDING + 1, 0)),
        (every_row.clone(), vec![[0, MOST_ROWS - 1, 1]]),
        (every_row, vec![[0, MOST_ROWS, 1]]),
        // These have script times and due times at 2^40 and above.
        (v2.clone(), vec![[LAST_TICK, 0, 1]]),
        (v2.clone(), vec![[LAST_TICK, 1, 1]]),
        (v2.clone(), vec![[LAST_TICK, 0, 2]]),
        (v2.clone(), vec![[LAST_TICK + 1, 0, 1]]),
        (v2.clone(), vec![[numbers::LARGEST, 0, 1]]),
        (v2.clone(), vec![[0, 0, 1], [LAST_TICK, 0, 1]]),
        (v2.clone(), vec![[1, 0, 1], [LAST_TICK, 0, 1]]),
        (v2.clone(), vec![[LAST_TICK - 6, 0, 1]]),
        (v2.clone(), vec![[LAST_TICK - 5, 0, 1]]),
        (v2.clone(), vec![[LAST_TICK - 8, 0, 1], [0, 0, 1]]),
        (v2.clone(), vec![[LAST_TICK - 7, 0, 1], [0, 0, 1]]),
        (v2, vec![[LAST_TICK - 8, 0, 1], [0, 0, 1], [0, 0, 1]]),
        // The clock comes to 2^40 in the final ticks, with a job pending or just without one.
        (crowded.clone(), vec![[LAST_TICK - 2, 0, 2]]),
        (crowded.clone(), vec![[LAST_TICK - 2, 0, 1], [0, 0, 1]]),
        (crowded.clone(), vec![[LAST_TICK - 2, 0, 2], [0, 0, 1]]),
        (crowded, vec![[0, 0, 2], [LAST_TICK - 2, 0, 2], [0, 0, 2]]),
        // A job that costs all of its d finishes exactly at its due time, also where that is 2^40, and a second one late.
        (vec![[1, 4, 4, 4]], vec![[0, 0, 4], [4, 0, 4], [LAST_TICK - 8, 0, 4]]),
        (vec![[2, 4, 4, 4]], vec![[0, 0, 4], [0, 0, 4]]),
        // One job finishes exactly at its due time, and another one tick later.
        (vec![[2, 1, 1, 1]], vec![[0, 0, 1]]),
        (vec![[2, 1, 1, 1]], vec![[0, 0, 1], [0, 0, 1]]),
        // The last log record is shorter than those before it. With nine bytes less of buffer it fits, and they don't.
        (vec![[1, 1, 16_000, 1], [64, 1, 1, 1]], [&[[0, 0, 1], [0, 1, 1]][..], &[[1, 1, 1]; 139]].concat()),
        // The serials and times have three groups, and the due times are far past their releases.
        (vec![[64, 80, 8, 1]], vec![[1, 0, 1]; 20_000]),
        // Among equal due times the lowest serial goes first.
        (vec![[9, 9, 9, 9], [9, 9, 5, 5]], vec![[0, 0, 2], [4, 1, 3], [0, 0, 1], [0, 1, 2]]),
    ]
}
