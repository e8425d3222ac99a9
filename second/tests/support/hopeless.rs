//! Hopeless rows, whose c is above their d: tables that have one or nearly have one, and an account of those that were
//! met.

use super::damage::{lengthen, misspell_one, replaced};
use super::random::Random;
use super::tables::{self, Row, Table};
use second::numbers;
use second::refusal::Reason;
use second::table::{self, MOST_C, MOST_D, MOST_ROWS, MOST_SERVERS, MOST_X, MOST_Y};
use std::collections::BTreeSet;

/// What a comparison met on either side of the rule that c is at most d.
#[derive(Clone, Copy, Debug, PartialEq, Eq, PartialOrd, Ord)]
pub enum Met {
    /// A table with a c that is its row's d was accepted.
    CIsD,
    /// A table was refused with 16 for a c that is one above its d.
    COneAboveD,
    /// A table was refused with 16 in the row of this number.
    InRow(u64),
    /// A table was refused with 16 that would get this refusal instead if the hopeless row's c were its d.
    Before(u32),
    /// A table was refused with 3 for a c that is above its d and out of its range as well.
    AfterRangeOfC,
}

/// What has to be met: 16 in the first row and in the last, and before each refusal that can come after it.
pub fn wanted() -> BTreeSet<Met> {
    let rows = [0, MOST_ROWS - 1].map(Met::InRow);
    let later = [
        Reason::Misspelled,
        Reason::TooManyRows,
        Reason::ValueOutOfRange,
        Reason::ExtraBytes,
        Reason::PeriodTooLong,
        Reason::HopelessRow,
    ];
    let before = later.map(|reason| Met::Before(reason.number()));
    [Met::CIsD, Met::COneAboveD, Met::AfterRangeOfC].into_iter().chain(rows).chain(before).collect()
}

/// What a table has of these, as its refusal shows it.
pub fn met(table: &[u8]) -> Vec<Met> {
    match table::read(table) {
        Ok(table) if table.rows.iter().any(|row| row.c == row.d) => vec![Met::CIsD],
        Ok(_) => vec![],
        Err(refusal) => match (refusal.reason, c_at(table, refusal.place)) {
            (Reason::HopelessRow, Some(of)) => {
                let by_one = [Met::COneAboveD].into_iter().filter(|_| of.c == of.d + 1);
                let mended = [&table[..of.start], &numbers::spell(of.d).unwrap(), &table[of.end..]].concat();
                let before = table::read(&mended).err().map(|later| Met::Before(later.reason.number()));
                by_one.chain([Met::InRow(of.row)]).chain(before).collect()
            }
            (Reason::HopelessRow, None) => panic!("no c at {} of {}", refusal.place, super::case::hex(table)),
            (Reason::ValueOutOfRange, Some(of)) if of.c > of.d => vec![Met::AfterRangeOfC],
            _ => vec![],
        },
    }
}

/// The c of a row: its value and the d before it, and where its bytes start and end.
struct OfRow {
    row: u64,
    d: u64,
    c: u64,
    start: usize,
    end: usize,
}

/// Finds the c that starts at a place, where the number there is one.
fn c_at(table: &[u8], start: usize) -> Option<OfRow> {
    let mut before = vec![];
    let mut place = 0;
    while place < start {
        let (number, after) = numbers::read(table, place).ok()?;
        before.push(number);
        place = after;
    }
    let (c, end) = numbers::read(table, start).ok()?;
    let values_before = before.len().checked_sub(3)?;
    let row = values_before as u64 / 4;
    (values_before % 4 == 3 && row < before[2]).then(|| OfRow { row, d: before[before.len() - 1], c, start, end })
}

/// Makes a table with a row whose c is above its d, equal to it, one below it, or out of its range. About half of these
/// have something else that is refused, too.
pub fn any(random: &mut Random) -> (Table, Vec<u8>) {
    let mut table = tables::any(random);
    let rows = &mut table.rows;
    if rows.is_empty() {
        rows.push([1, 1, 1, 1]);
    }
    let count = rows.len();
    let anywhere = random.index(count);
    let hopeless = random.pick(&[0, count - 1, anywhere]);
    spoil(&mut rows[hopeless], random);
    let other = random.index(count);
    match random.below(12) {
        0 => {
            let bytes = lengthen(&table.spell(), random);
            return (table, bytes);
        }
        1 => {
            let bytes = misspell_one(&table.numbers(), random);
            return (table, bytes);
        }
        2 => {
            let mut bytes = table.spell();
            bytes.truncate(random.index(bytes.len()));
            return (table, bytes);
        }
        3 => spoil(&mut rows[other], random),
        4 => {
            let value = random.index(4);
            let most = [MOST_X, MOST_Y, MOST_D, MOST_C][value];
            rows[other][value] = random.pick(&[0, most + 1, most + (1 << 32)]);
        }
        5 => {
            let [first_y, last_y] = random.pick(&[[1_141, 919], [919, 1_141]]);
            rows[0][1] = first_y;
            rows.push([1, last_y, last_y, 1]);
        }
        6 => table.servers = vec![[1, 1]; MOST_SERVERS as usize + 1],
        _ => {}
    }
    let bytes = table.spell();
    (table, bytes)
}

/// Gives a row a c that is above its d, by one or by more, equal to it, one below it, or out of its range.
pub fn spoil(row: &mut Row, random: &mut Random) {
    let [_, _, d, c] = row;
    if *d < 1 || *d >= MOST_C {
        *d = random.pick(&[1, 2, 127, 128, MOST_C - 2, MOST_C - 1]);
    }
    *c = match random.below(10) {
        0..=3 => *d + 1,
        4 | 5 => random.within(*d + 1, MOST_C),
        6 => MOST_C,
        7 => *d,
        8 => (*d - 1).max(1),
        _ => random.pick(&[MOST_C + 1, 5_000, 1 << 14, 1 << 32, 1 << 41, numbers::LARGEST]),
    };
}

/// The named tables: c and d on either side of each other and of their limits, alone and beside every other refusal, in
/// each row of the longest table.
pub fn edge_tables() -> Vec<Vec<u8>> {
    let mut tables = vec![];
    for d in [1, 2, 4, 127, 128, MOST_C - 1, MOST_C, MOST_D] {
        for c in [d - 1, d, d + 1, MOST_C - 1, MOST_C, MOST_C + 1, 5_000, 1 << 14, 1 << 32, 1 << 41] {
            let row = [1, MOST_C, d, c];
            tables
                .extend([vec![row], vec![[1, 4, 4, 1], row], vec![row, [1, 4, 4, 1]]].map(|rows| tables::spell(&rows)));
        }
    }

    let hopeless = [1, 4, 4, 5];
    let alone = tables::spell(&[hopeless]);
    let in_both = tables::spell(&[hopeless, [1, 4, 4, 6]]);
    tables.extend((0..in_both.len()).map(|cut| in_both[..cut].to_vec()));
    for place in 0..in_both.len() {
        tables.extend(
            [&[0x00][..], &[0x81, 0x00], &[0x85, 0x80, 0x00], &[0xff; 6]].map(|bad| replaced(&in_both, place, bad)),
        );
    }
    for extra in [&[0x00][..], &[0x80], &[0x80, 0x00], &[1, 4, 4, 4]] {
        tables.push([&alone[..], extra].concat());
        tables.push([&in_both[..], extra].concat());
    }
    for servers in [vec![[1, 1]], vec![[0, 1]], vec![[4, 3]], vec![[1, 1]; MOST_SERVERS as usize + 1]] {
        tables.push(tables::spell_all(tables::NO_TIMER, &[hopeless], &servers));
        tables.push(tables::spell_all(tables::NO_TIMER, &[[1, 4, 4, 4], hopeless], &servers));
    }
    for [first, last] in [[1, 2], [2, 1], [2, 2]] {
        let too_long = tables::spell(&[[1, 1_141, 1, first], [1, 919, 1, last]]);
        tables.push([&too_long[..], &[0x00]].concat());
        tables.push(too_long);
    }

    let most = MOST_ROWS as usize;
    for row in 0..most {
        let mut rows = vec![[1, MOST_ROWS, 4, 4]; most];
        rows[row][3] = 5;
        tables.push(tables::spell(&rows));
    }
    tables.push(tables::spell(&vec![[1, MOST_ROWS, 4, 4]; most]));
    tables.push(tables::spell(&vec![hopeless; most]));
    tables.push(tables::spell(&vec![hopeless; most + 1]));
    for timer in [[0, 4], [3, 4], [127, 128], [4, 4], [0, 0], [0, 4_097]] {
        tables.push(tables::spell_with(timer, &[hopeless]));
        tables.push(tables::spell_with(timer, &[[1, 4, 4, 4], hopeless]));
        tables.push(tables::spell_with(timer, &[[1, 4, 4, 4]]));
    }
    tables
}
