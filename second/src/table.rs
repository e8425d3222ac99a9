//! Tables. A table is the timer's s and p, its row count, then x, y, d and c of each row, its server count, then a and b
//! of each server, and nothing after.

use crate::numbers;
use crate::refusal::{Reason, Refusal};

/// This is the limit of rows.
pub const MOST_ROWS: u64 = 64;
pub const MOST_P: u64 = 4_096;
pub const MOST_X: u64 = 64;
pub const MOST_Y: u64 = 4_096;
pub const MOST_D: u64 = 16_384;
pub const MOST_C: u64 = 4_096;
/// This is the limit of servers.
pub const MOST_SERVERS: u64 = 8;
pub const MOST_A: u64 = 4_096;
pub const MOST_B: u64 = 4_096;
pub const MOST_ODD_COST: u64 = 4_096;
pub const LONGEST_PERIOD: u64 = 1_048_576;

/// The sampling timer takes the first s ticks of every p, counted from clock 0. In a table that was read, s is below p.
#[derive(Clone, Copy, Debug, PartialEq, Eq)]
pub struct Timer {
    pub s: u64,
    pub p: u64,
}

impl Timer {
    /// Says whether the tick at a clock is taken.
    pub fn takes(&self, clock: u64) -> bool {
        clock % self.p < self.s
    }

    /// Returns how many ticks are taken in a length of time that starts at zero. No other start has more.
    pub fn taken(&self, length: u64) -> u64 {
        length / self.p * self.s + self.s.min(length % self.p)
    }
}

/// In a row, x executions are expected in any y ticks. Each is due d ticks after its release, and costs at most c. In a
/// table that was read, c is at most d.
#[derive(Clone, Copy, Debug, PartialEq, Eq)]
pub struct Row {
    pub x: u64,
    pub y: u64,
    pub d: u64,
    pub c: u64,
}

/// A server gives a units in b ticks to odd jobs, which have no rate. In a table that was read, a is at most b.
#[derive(Clone, Copy, Debug, PartialEq, Eq)]
pub struct Server {
    pub a: u64,
    pub b: u64,
}

impl Server {
    /// Returns the demand in a length of time. One odd job that is released and due inside the length can cost as much,
    /// and all of them together cost no more.
    pub fn demand(&self, length: u64) -> u64 {
        self.a * length / self.b
    }
}

#[derive(Clone, Debug, PartialEq, Eq)]
pub struct Table {
    pub timer: Timer,
    pub rows: Vec<Row>,
    pub servers: Vec<Server>,
    /// The period is H, the least common multiple of the timer's p, the y of all rows and the b of all servers.
    pub period: u64,
}

/// This is what a row number in use names. First come the rows, and then the servers.
#[derive(Clone, Copy, Debug, PartialEq, Eq)]
pub enum Named {
    Row(Row),
    Server(Server),
}

impl Named {
    /// Returns the most that one job may cost.
    pub fn most_cost(&self) -> u64 {
        match self {
            Named::Row(row) => row.c,
            Named::Server(_) => MOST_ODD_COST,
        }
    }
}

impl Table {
    pub fn empty() -> Table {
        Table { timer: Timer { s: 0, p: 1 }, rows: vec![], servers: vec![], period: 1 }
    }

    pub fn named(&self, number: u64) -> Option<Named> {
        let rows = self.rows.iter().copied().map(Named::Row);
        let servers = self.servers.iter().copied().map(Named::Server);
        rows.chain(servers).nth(usize::try_from(number).ok()?)
    }

    pub fn largest_d(&self) -> u64 {
        self.rows.iter().map(|row| row.d).max().unwrap_or(0)
    }
}

pub fn read(bytes: &[u8]) -> Result<Table, Refusal> {
    let (s, mut place) = numbers::read(bytes, 0)?;
    let p = value(bytes, &mut place, MOST_P)?;
    if s >= p {
        return Err(Reason::ValueOutOfRange.at(0));
    }
    let start_of_count = place;
    let (count, mut place) = numbers::read(bytes, start_of_count)?;
    if count > MOST_ROWS {
        return Err(Reason::TooManyRows.at(start_of_count));
    }
    let mut rows = vec![];
    for _ in 0..count {
        let x = value(bytes, &mut place, MOST_X)?;
        let y = value(bytes, &mut place, MOST_Y)?;
        let d = value(bytes, &mut place, MOST_D)?;
        let start_of_c = place;
        let c = value(bytes, &mut place, MOST_C)?;
        if c > d {
            return Err(Reason::HopelessRow.at(start_of_c));
        }
        rows.push(Row { x, y, d, c });
    }
    let start_of_server_count = place;
    let (server_count, mut place) = numbers::read(bytes, start_of_server_count)?;
    if server_count > MOST_SERVERS {
        return Err(Reason::TooManyRows.at(start_of_server_count));
    }
    let mut servers = vec![];
    for _ in 0..server_count {
        let a = value(bytes, &mut place, MOST_A)?;
        let start_of_b = place;
        let b = value(bytes, &mut place, MOST_B)?;
        if b < a {
            return Err(Reason::ValueOutOfRange.at(start_of_b));
        }
        servers.push(Server { a, b });
    }
    if place < bytes.len() {
        return Err(Reason::ExtraBytes.at(place));
    }
    let mut period = p;
    for number in rows.iter().map(|row| row.y).chain(servers.iter().map(|server| server.b)) {
        period = least_common_multiple(period, number);
        if period > LONGEST_PERIOD {
            return Err(Reason::PeriodTooLong.at(bytes.len()));
        }
    }
    Ok(Table { timer: Timer { s, p }, rows, servers, period })
}

/// Reads a p or a value of a row or server, from 1 to its most, and moves the place to the byte after it.
fn value(bytes: &[u8], place: &mut usize, most: u64) -> Result<u64, Refusal> {
    let (number, after) = numbers::read(bytes, *place)?;
    if number < 1 || number > most {
        return Err(Reason::ValueOutOfRange.at(*place));
    }
    *place = after;
    Ok(number)
}

fn least_common_multiple(a: u64, b: u64) -> u64 {
    a / greatest_common_divisor(a, b) * b
}

fn greatest_common_divisor(a: u64, b: u64) -> u64 {
    if b == 0 {
        a
    } else {
        greatest_common_divisor(b, a % b)
    }
}

#[cfg(test)]
pub mod tests {
    use super::*;

    /// Spells a table whose timer takes no tick, whether its values are in range or not.
    pub fn spell(rows: &[[u64; 4]]) -> Vec<u8> {
        spell_with([0, 1], rows)
    }

    /// Spells a table with the timer's s and p and without servers, whether its values are in range or not.
    pub fn spell_with(timer: [u64; 2], rows: &[[u64; 4]]) -> Vec<u8> {
        spell_all(timer, rows, &[])
    }

    /// Spells a table with the timer's s and p and with servers, whether its values are in range or not.
    pub fn spell_all([s, p]: [u64; 2], rows: &[[u64; 4]], servers: &[[u64; 2]]) -> Vec<u8> {
        let of_rows = [s, p, rows.len() as u64].into_iter().chain(rows.iter().flatten().copied());
        let of_servers = [servers.len() as u64].into_iter().chain(servers.iter().flatten().copied());
        of_rows.chain(of_servers).flat_map(|number| numbers::spell(number).unwrap()).collect()
    }

    fn spell_servers(servers: &[[u64; 2]]) -> Vec<u8> {
        spell_all([0, 1], &[], servers)
    }

    fn refused(bytes: &[u8]) -> (u32, usize) {
        let refusal = read(bytes).unwrap_err();
        (refusal.reason.number(), refusal.place)
    }

    #[test]
    fn reads_the_examples() {
        let table = |[s, p]: [u64; 2], rows: &[Row], servers: &[Server], period| {
            Ok(Table { timer: Timer { s, p }, rows: rows.to_vec(), servers: servers.to_vec(), period })
        };
        assert_eq!(read(&[0, 1, 0, 0]), Ok(Table::empty()));
        assert_eq!(read(&[0, 1, 1, 1, 2, 6, 1, 0]), table([0, 1], &[Row { x: 1, y: 2, d: 6, c: 1 }], &[], 2));
        assert_eq!(read(&spell(&[[1, 4, 4, 2], [1, 6, 6, 3]])).unwrap().period, 12);
        assert_eq!(read(&[1, 4, 0, 0]), table([1, 4], &[], &[], 4));
        assert_eq!(read(&[1, 4, 1, 1, 4, 4, 3, 0]), table([1, 4], &[Row { x: 1, y: 4, d: 4, c: 3 }], &[], 4));
        assert_eq!(read(&[0, 1, 0, 1, 1, 4]), table([0, 1], &[], &[Server { a: 1, b: 4 }], 4));
        let s5 = [Server { a: 1, b: 1 }, Server { a: 1, b: 4_096 }];
        assert_eq!(read(&[0, 1, 0, 2, 1, 1, 1, 0x80, 0x20]), table([0, 1], &[], &s5, 4_096));
        let of_r3 = table([0, 1], &[Row { x: 1, y: 4, d: 4, c: 2 }], &[Server { a: 1, b: 4 }], 4);
        assert_eq!(read(&[0, 1, 1, 1, 4, 4, 2, 1, 1, 4]), of_r3);
    }

    #[test]
    fn a_bad_byte_is_1_at_its_place() {
        assert_eq!(refused(&[0, 1, 0x80, 0x00]), (1, 3));
        assert_eq!(refused(&[0, 1, 1, 1, 0x82, 0x00, 6, 1]), (1, 5));
        assert_eq!(refused(&[0, 1, 1, 1, 2, 6, 0x80, 0x80, 0x80, 0x80, 0x80, 0x00]), (1, 11));
        assert_eq!(refused(&[0, 1, 1, 1, 0x80, 0x80, 0x80, 0x80, 0x80, 0x80, 1]), (1, 9));
        assert_eq!(refused(&[0, 1, 1, 1, 0x80, 0x80, 0x80, 0x80, 0x80, 0x80]), (1, 9));
        assert_eq!(refused(&[0, 1, 0xff, 0xff, 0xff, 0xff, 0xff, 0xff]), (1, 7));
        assert_eq!(refused(&[0xff; 6]), (1, 5));
        assert_eq!(refused(&[0x80, 0x00]), (1, 1));
        assert_eq!(refused(&[0, 0x81, 0x00, 0]), (1, 2));
    }

    #[test]
    fn a_number_cut_off_or_missing_is_1_at_the_length() {
        assert_eq!(refused(&[]), (1, 0));
        assert_eq!(refused(&[0x80, 0x80, 0x80, 0x80, 0x80]), (1, 5));
        assert_eq!(refused(&[0]), (1, 1));
        assert_eq!(refused(&[0, 0x81]), (1, 2));
        assert_eq!(refused(&[0, 1]), (1, 2));
        assert_eq!(refused(&[0, 1, 1]), (1, 3));
        assert_eq!(refused(&[0, 1, 0]), (1, 3));
        assert_eq!(refused(&[0, 1, 1, 1, 2, 6]), (1, 6));
        assert_eq!(refused(&[0, 1, 1, 1, 2, 6, 1]), (1, 7));
        assert_eq!(refused(&[0, 1, 0, 1]), (1, 4));
        assert_eq!(refused(&[0, 1, 0, 1, 1]), (1, 5));
        assert_eq!(refused(&[0, 1, 0, 1, 1, 0x84]), (1, 6));
        assert_eq!(refused(&[0, 1, 0, 2, 1, 4]), (1, 6));
        assert_eq!(refused(&[0, 1, 1, 1, 0x82]), (1, 5));
        assert_eq!(refused(&[0, 1, 0x80, 0x80, 0x80, 0x80, 0x80]), (1, 7));
        assert_eq!(refused(&[0, 1, 1, 1, 0x80, 0x80, 0x80, 0x80, 0x80]), (1, 9));
    }

    #[test]
    fn as_many_rows_as_the_limit_yes_one_more_is_2_before_any_row_is_read() {
        let most = MOST_ROWS as usize;
        for count in [most - 1, most] {
            assert_eq!(read(&spell(&vec![[1, 1, 1, 1]; count])).unwrap().rows.len(), count);
        }
        assert_eq!(refused(&spell(&vec![[1, 1, 1, 1]; most + 1])), (2, 2));
        assert_eq!(refused(&[0, 1, MOST_ROWS as u8 + 1]), (2, 2));
        assert_eq!(refused(&[0, 1, 0x80, 0x80, 0x80, 0x80, 0x80, 0x40]), (2, 2));
        assert_eq!(refused(&spell_with([127, 128], &vec![[1, 1, 1, 1]; most + 1])), (2, 3));
        assert_eq!(refused(&spell_with([4_095, 4_096], &vec![[1, 1, 1, 1]; most + 1])), (2, 4));
    }

    #[test]
    fn the_other_refusals_in_the_last_row_of_the_longest_table() {
        let mut rows = vec![[1, 1, 1, 1]; MOST_ROWS as usize];
        let whole = spell(&rows);
        assert_eq!(refused(&whole[..whole.len() - 1]), (1, whole.len() - 1));
        assert_eq!(refused(&[&whole[..], &[0]].concat()), (4, whole.len()));
        rows[0][1] = 1_141;
        rows[MOST_ROWS as usize - 1][1] = 919;
        let long = spell(&rows);
        assert_eq!(refused(&long), (5, long.len()));
        rows[MOST_ROWS as usize - 1][3] = 0;
        assert_eq!(refused(&spell(&rows)), (3, long.len() - 2));
    }

    #[test]
    fn each_value_at_and_past_its_limits() {
        assert!(read(&spell(&[[64, 4_096, 16_384, 4_096]])).is_ok());
        for (row, place) in [
            ([0, 1, 1, 1], 3),
            ([65, 1, 1, 1], 3),
            ([1, 0, 1, 1], 4),
            ([1, 4_097, 1, 1], 4),
            ([1, 1, 0, 1], 5),
            ([1, 1, 16_385, 1], 5),
            ([1, 1, 1, 0], 6),
            ([1, 1, 1, 4_097], 6),
            ([1 << 41, 1, 1, 1], 3),
        ] {
            assert_eq!(refused(&spell(&[row])), (3, place), "{row:?}");
        }
    }

    #[test]
    fn a_bad_value_beats_what_comes_after_it() {
        assert_eq!(refused(&[0, 1, 1, 0, 0x80, 0x00]), (3, 3));
        assert_eq!(refused(&[0, 1, 1, 0x80, 0x00, 0]), (1, 4));
    }

    #[test]
    fn c_above_d_is_16_at_the_start_of_c_and_c_equal_to_d_is_not() {
        assert_eq!(refused(&[0, 1, 1, 1, 4, 4, 5]), (16, 6));
        assert_eq!(refused(&[0, 1, 1, 1, 1, 1, 2]), (16, 6));
        assert_eq!(refused(&spell(&[[1, 4, 1, 4_096]])), (16, 6));
        assert_eq!(refused(&[0, 1, 1, 1, 4, 0x80, 0x01, 0x81, 0x01]), (16, 7));
        assert_eq!(refused(&spell(&[[1, 200, 4_095, 4_096]])), (16, 8));
        for (d, c) in [(1, 1), (4, 4), (4, 3), (127, 127), (128, 127), (128, 128), (4_096, 4_096), (16_384, 4_096)] {
            assert_eq!(read(&spell(&[[1, 4, d, c]])).unwrap().rows, [Row { x: 1, y: 4, d, c }]);
        }
    }

    #[test]
    fn the_tests_of_d_and_of_c_alone_come_before_16() {
        for c in [0, 4_097, 5_000, 1 << 14, 1 << 32, 1 << 41] {
            for d in [1, 4, 127] {
                assert_eq!(refused(&spell(&[[1, 4, d, c]])), (3, 6), "{d} {c}");
            }
        }
        assert_eq!(refused(&[0, 1, 1, 1, 4, 0, 5]), (3, 5));
        assert_eq!(refused(&spell(&[[1, 4, 16_385, 4_096]])), (3, 5));
        assert_eq!(refused(&[0, 1, 1, 1, 4, 0x84, 0x00, 5]), (1, 6));
        assert_eq!(refused(&[0, 1, 1, 1, 4, 4, 0x85, 0x00]), (1, 7));
        assert_eq!(refused(&[0, 1, 1, 1, 4, 4, 0x85]), (1, 7));
        assert_eq!(refused(&[0, 1, 1, 1, 4, 4]), (1, 6));
    }

    #[test]
    fn of_16_and_the_refusal_of_another_row_the_earlier_is_given() {
        assert_eq!(refused(&[0, 1, 2, 1, 4, 4, 4, 1, 4, 4, 5]), (16, 10));
        assert_eq!(refused(&[0, 1, 2, 1, 4, 4, 5, 1, 4, 4, 5]), (16, 6));
        assert_eq!(refused(&[0, 1, 2, 1, 4, 4, 0, 1, 4, 4, 5]), (3, 6));
        assert_eq!(refused(&[0, 1, 2, 0x81, 0x00, 4, 4, 4, 1, 4, 4, 5]), (1, 4));
        assert_eq!(refused(&[0, 1, 2, 1, 4, 4, 5, 0, 4, 4, 5]), (16, 6));
        assert_eq!(refused(&[0, 1, 2, 1, 4, 4, 5, 1, 4, 4, 0]), (16, 6));
        assert_eq!(refused(&[0, 1, 2, 1, 4, 4, 5, 0x81, 0x00, 4, 4, 4]), (16, 6));
        assert_eq!(refused(&[0, 1, 2, 1, 4, 4, 5]), (16, 6));
        assert_eq!(refused(&[0, 1, 2, 1, 4, 4, 5, 1, 4, 4]), (16, 6));
    }

    #[test]
    fn a_row_count_too_high_comes_before_16_and_16_before_extra_bytes_and_a_long_period() {
        let most = MOST_ROWS as usize;
        assert_eq!(refused(&spell(&vec![[1, 1, 1, 2]; most + 1])), (2, 2));
        let mut rows = vec![[1, 1, 1, 1]; most];
        rows[most - 1][3] = 2;
        assert_eq!(refused(&spell(&rows)), (16, 2 + 4 * most));
        rows[0][3] = 2;
        assert_eq!(refused(&spell(&rows)), (16, 6));
        assert_eq!(refused(&[0, 1, 1, 1, 4, 4, 5, 0]), (16, 6));
        assert_eq!(refused(&[0, 1, 1, 1, 4, 4, 5, 0x80, 0x00]), (16, 6));
        for first in [1, 2] {
            let long = spell(&[[1, 1_141, 1, first], [1, 919, 1, 2]]);
            let place = if first == 2 { 7 } else { long.len() - 2 };
            assert_eq!(refused(&long), (16, place));
            assert_eq!(refused(&[&long[..], &[9]].concat()), (16, place));
        }
    }

    #[test]
    fn bytes_after_the_last_server_are_4_and_not_read() {
        assert_eq!(refused(&[0, 1, 0, 0, 0]), (4, 4));
        assert_eq!(refused(&[0, 1, 0, 0, 0x80]), (4, 4));
        assert_eq!(refused(&[0, 1, 1, 1, 2, 6, 1, 0, 9, 9]), (4, 8));
        assert_eq!(refused(&[0, 1, 0, 1, 1, 4, 0x80, 0x00]), (4, 6));
        assert_eq!(refused(&[0, 1, 0, 1, 1, 4, 1, 4]), (4, 6));
        let mut too_long_as_well = spell(&[[1, 1_141, 1, 1], [1, 919, 1, 1]]);
        let length = too_long_as_well.len();
        too_long_as_well.push(0);
        assert_eq!(refused(&too_long_as_well), (4, length));
    }

    #[test]
    fn the_longest_period() {
        assert_eq!(read(&spell(&[[1, 1_023, 1, 1], [1, 1_025, 1, 1]])).unwrap().period, 1_048_575);
        let above = spell(&[[1, 1_141, 1, 1], [1, 919, 1, 1]]);
        assert_eq!(refused(&above), (5, above.len()));
        let primes = [4_093, 4_091, 4_079, 4_073, 4_057, 4_051, 4_049, 4_027, 4_021, 4_019, 4_013, 4_007, 4_003, 4_001];
        let far_above = spell(&primes.map(|y| [1, y, 1, 1]));
        assert_eq!(refused(&far_above), (5, far_above.len()));
    }

    #[test]
    fn the_timer_at_and_past_its_limits() {
        for timer in [[0, 1], [0, 2], [1, 2], [0, 4_096], [126, 127], [127, 128], [4_094, 4_096], [4_095, 4_096]] {
            let table = read(&spell_with(timer, &[])).unwrap();
            assert_eq!([table.timer.s, table.timer.p, table.period], [timer[0], timer[1], timer[1]]);
        }
        for p in [0, 4_097, 1 << 14, 1 << 32, 1 << 41, numbers::LARGEST] {
            assert_eq!(refused(&spell_with([0, p], &[])), (3, 1), "{p}");
            assert_eq!(refused(&spell_with([127, p], &[])), (3, 1), "{p}");
        }
        for (s, p) in [(1, 1), (2, 1), (2, 2), (128, 128), (4_096, 4_096), (1 << 32, 1), (1 << 41, 4_096)] {
            assert_eq!(refused(&spell_with([s, p], &[])), (3, 0), "{s} {p}");
        }
        assert_eq!(refused(&[0, 0, 0, 0]), (3, 1));
        assert_eq!(refused(&[1, 1, 0, 0]), (3, 0));
    }

    #[test]
    fn p_is_tested_before_s_and_both_before_what_comes_after() {
        for s in [0, 1, 4_097, 5_000, 1 << 41] {
            let start_of_p = numbers::spell(s).unwrap().len();
            assert_eq!(refused(&spell_with([s, 0], &[])), (3, start_of_p), "{s}");
            assert_eq!(refused(&spell_with([s, 4_097], &[])), (3, start_of_p), "{s}");
            let misspelled = [&numbers::spell(s).unwrap()[..], &[0x81, 0x00, 0]].concat();
            assert_eq!(refused(&misspelled), (1, start_of_p + 1), "{s}");
            let cut = [&numbers::spell(s).unwrap()[..], &[0x81]].concat();
            assert_eq!(refused(&cut), (1, start_of_p + 1), "{s}");
            assert_eq!(refused(&numbers::spell(s).unwrap()), (1, start_of_p), "{s}");
        }
        for after in [&[][..], &[0x80, 0x00], &[MOST_ROWS as u8 + 1], &[1, 0], &[1, 1, 4, 4, 5], &[0, 0]] {
            assert_eq!(refused(&[&[0, 0], after].concat()), (3, 1));
            assert_eq!(refused(&[&[1, 1], after].concat()), (3, 0));
        }
        assert_eq!(refused(&[0x81, 0x00, 0]), (1, 1));
    }

    #[test]
    fn places_after_a_long_timer() {
        let timer = [0x80, 0x01, 0x81, 0x01];
        let refused_after = |rest: &[u8]| refused(&[&timer[..], rest].concat());
        assert_eq!(refused_after(&[]), (1, 4));
        assert_eq!(refused_after(&[0x80, 0x00]), (1, 5));
        assert_eq!(refused_after(&[65]), (2, 4));
        assert_eq!(refused_after(&[0]), (1, 5));
        assert_eq!(refused_after(&[0, 9]), (2, 5));
        assert_eq!(refused_after(&[0, 0, 7]), (4, 6));
        assert_eq!(refused_after(&[0, 1, 0]), (3, 6));
        assert_eq!(refused_after(&[0, 1, 4, 3]), (3, 7));
        assert_eq!(refused_after(&[1, 0]), (3, 5));
        assert_eq!(refused_after(&[1, 1, 4, 4, 5]), (16, 8));
    }

    #[test]
    fn p_joins_the_period_where_s_is_0_too() {
        for s in [0, 1, 918] {
            assert_eq!(read(&spell_with([s, 1_023], &[[1, 1_025, 1, 1]])).unwrap().period, 1_048_575);
            let above = spell_with([s, 919], &[[1, 1_141, 1, 1]]);
            assert_eq!(refused(&above), (5, above.len()));
            assert_eq!(refused(&[&above[..], &[0]].concat()), (4, above.len()));
            assert_eq!(read(&spell_with([0, 1], &[[1, 1_141, 1, 1]])).unwrap().period, 1_141);
        }
        assert_eq!(read(&spell_with([0, 12], &[[1, 4, 4, 2], [1, 6, 6, 3]])).unwrap().period, 12);
        assert_eq!(read(&spell_with([1, 5], &[[1, 4, 4, 2], [1, 6, 6, 3]])).unwrap().period, 60);
        let above = spell_with([0, 3], &[[1, 1_024, 1, 1], [1, 1_023, 1, 1], [1, 4, 1, 1]]);
        assert_eq!(read(&above).unwrap().period, 1_047_552);
        let above = spell_with([0, 2_048], &[[1, 1_024, 1, 1], [1, 1_023, 1, 1], [1, 4, 1, 1]]);
        assert_eq!(refused(&above), (5, above.len()));
    }

    #[test]
    fn as_many_servers_as_the_limit_yes_one_more_is_2_before_any_server_is_read() {
        let most = MOST_SERVERS as usize;
        for count in 0..=most {
            assert_eq!(read(&spell_servers(&vec![[1, 9]; count])).unwrap().servers, vec![Server { a: 1, b: 9 }; count]);
        }
        assert_eq!(refused(&spell_servers(&vec![[1, 9]; most + 1])), (2, 3));
        for count in [MOST_SERVERS + 1, MOST_ROWS, 127, 128, 1 << 32, (1 << 32) + 1, 1 << 41, numbers::LARGEST] {
            for after in [&[][..], &[0], &[0x80, 0x00], &[1; 200]] {
                let bytes = [&[0, 1, 0][..], &numbers::spell(count).unwrap(), after].concat();
                assert_eq!(refused(&bytes), (2, 3), "{count} {after:x?}");
            }
        }
        let rows = [[1, 1, 1, 1]; MOST_ROWS as usize];
        assert_eq!(read(&spell_all([0, 1], &rows, &vec![[1, 9]; most])).unwrap().servers.len(), most);
        assert_eq!(refused(&spell_all([0, 1], &rows, &vec![[1, 9]; most + 1])), (2, 3 + 4 * rows.len()));
        assert_eq!(refused(&spell_all([127, 128], &[[1, 300, 300, 1]], &vec![[1, 9]; most + 1])), (2, 10));
    }

    #[test]
    fn a_and_b_at_and_past_their_limits() {
        for [a, b] in [[1, 1], [1, 2], [2, 2], [127, 128], [1, 4_096], [4_095, 4_096], [4_096, 4_096]] {
            assert_eq!(read(&spell_servers(&[[a, b]])).unwrap().servers, [Server { a, b }]);
        }
        for a in [0, 4_097, 5_000, 1 << 14, 1 << 32, (1 << 32) + 1, 1 << 41, numbers::LARGEST] {
            for b in [0, 1, 4, 4_096, 4_097, 1 << 41] {
                assert_eq!(refused(&spell_servers(&[[a, b]])), (3, 4), "{a} {b}");
            }
        }
        for (a, b) in [(1, 0), (2, 1), (4, 3), (127, 126), (1, 4_097), (1, 1 << 32), (1, (1 << 32) + 4), (1, 1 << 41)] {
            assert_eq!(refused(&spell_servers(&[[a, b]])), (3, 5), "{a} {b}");
        }
        for (a, b) in [(128, 127), (4_096, 1), (4_096, 4_095), (4_096, 4_097), (4_096, 0)] {
            assert_eq!(refused(&spell_servers(&[[a, b]])), (3, 6), "{a} {b}");
        }
        let mut servers = vec![[1, 9]; MOST_SERVERS as usize];
        servers[7] = [4, 3];
        assert_eq!(refused(&spell_servers(&servers)), (3, 4 + 15));
        servers[7] = [0, 3];
        assert_eq!(refused(&spell_servers(&servers)), (3, 4 + 14));
        servers[2] = [9, 8];
        assert_eq!(refused(&spell_servers(&servers)), (3, 4 + 5));
    }

    #[test]
    fn each_number_of_a_server_is_tested_before_the_next_is_looked_at() {
        let refused_after = |rest: &[u8]| refused(&[&[0, 1, 0], rest].concat());
        for bad_b in [&[][..], &[0x80, 0x00], &[0x81], &[0xff; 6], &[0, 9], &[4, 9, 9]] {
            assert_eq!(refused_after(&[&[1, 0], bad_b].concat()), (3, 4));
            assert_eq!(refused_after(&[&[1, 0x81, 0x20], bad_b].concat()), (3, 4));
        }
        assert_eq!(refused_after(&[0x80, 0x00]), (1, 4));
        assert_eq!(refused_after(&[0x89, 0x00]), (1, 4));
        assert_eq!(refused_after(&[0xff; 6]), (1, 8));
        assert_eq!(refused_after(&[1, 0x80, 0x00, 4]), (1, 5));
        assert_eq!(refused_after(&[1, 1, 0x84, 0x00]), (1, 6));
        assert_eq!(refused_after(&[1, 1, 0x84, 0x80, 0x80, 0x80, 0x80, 0x80]), (1, 10));
        assert_eq!(refused_after(&[2, 4, 3, 0, 0]), (3, 5));
        assert_eq!(refused_after(&[2, 4, 3, 0x80, 0x00]), (3, 5));
        assert_eq!(refused_after(&[1, 4, 3, 7, 7]), (3, 5));
        assert_eq!(refused(&spell_all([0, 919], &[[1, 1_141, 1, 1]], &[[4, 3]])), (3, 11));
        assert_eq!(refused(&spell_all([0, 1], &[[1, 4, 4, 5]], &[[1, 1]; 9])), (16, 6));
    }

    #[test]
    fn every_b_joins_the_period_unreduced() {
        assert_eq!(read(&spell_all([0, 5], &[[1, 4, 4, 2], [1, 6, 6, 3]], &[[1, 7], [3, 8]])).unwrap().period, 840);
        assert_eq!(read(&spell_servers(&[[512, 1_024]])).unwrap().period, 1_024);
        for a in [1, 3, 512, 1_024] {
            // In lowest terms 512 of 1024 would be 1 of 2, and the period 2050.
            let above = spell_all([0, 1], &[[1, 1_025, 1, 1]], &[[a, 1_024]]);
            assert_eq!(refused(&above), (5, above.len()));
            assert_eq!(refused(&[&above[..], &[0]].concat()), (4, above.len()));
            let longest = spell_all([0, 1], &[[1, 1_025, 1, 1]], &[[a.min(1_023), 1_023]]);
            assert_eq!(read(&longest).unwrap().period, 1_048_575);
        }
        let by_two_servers = spell_servers(&[[1, 1_141], [919, 919]]);
        assert_eq!(refused(&by_two_servers), (5, by_two_servers.len()));
        let by_p = spell_all([0, 919], &[], &[[1, 1_141]]);
        assert_eq!(refused(&by_p), (5, by_p.len()));
        let far_above = spell_servers(&[4_093, 4_091, 4_079, 4_073, 4_057, 4_051, 4_049, 4_027].map(|b| [1, b]));
        assert_eq!(refused(&far_above), (5, far_above.len()));
    }

    #[test]
    fn row_numbers_name_the_rows_and_then_the_servers() {
        let table = read(&spell_all([0, 1], &[[1, 4, 4, 2], [1, 6, 6, 3]], &[[1, 4], [2, 3]])).unwrap();
        assert_eq!([0, 1].map(|row| table.named(row)), [0, 1].map(|row| Some(Named::Row(table.rows[row]))));
        assert_eq!([2, 3].map(|row| table.named(row)), [0, 1].map(|k| Some(Named::Server(table.servers[k]))));
        assert_eq!([4, 64, 72, 1 << 32, u64::MAX].map(|row| table.named(row)), [None; 5]);
        assert_eq!([0, 1, 2, 3].map(|row| table.named(row).unwrap().most_cost()), [2, 3, 4_096, 4_096]);
        assert_eq!(Table::empty().named(0), None);
    }

    #[test]
    fn a_servers_demand_is_its_share_rounded_down() {
        let demand = |a, b| (0..=9).map(|length| Server { a, b }.demand(length)).collect::<Vec<u64>>();
        assert_eq!(demand(1, 4), [0, 0, 0, 0, 1, 1, 1, 1, 2, 2]);
        assert_eq!(demand(2, 3), [0, 0, 1, 2, 2, 3, 4, 4, 5, 6]);
        assert_eq!(demand(5, 5), [0, 1, 2, 3, 4, 5, 6, 7, 8, 9]);
    }

    #[test]
    fn taken_ticks_are_the_first_s_of_every_p() {
        let takes = |s, p| (0..12).filter(|&clock| Timer { s, p }.takes(clock)).collect::<Vec<u64>>();
        assert_eq!(takes(1, 4), [0, 4, 8]);
        assert_eq!(takes(2, 5), [0, 1, 5, 6, 10, 11]);
        assert_eq!(takes(3, 4), [0, 1, 2, 4, 5, 6, 8, 9, 10]);
        assert_eq!(takes(0, 4), [0; 0]);
        assert_eq!(takes(0, 1), [0; 0]);
    }

    #[test]
    fn the_taken_ticks_of_a_length_are_those_from_zero_and_no_window_has_more() {
        for p in 1..=9 {
            for s in 0..p {
                let timer = Timer { s, p };
                let between = |start, end| (start..end).filter(|&clock| timer.takes(clock)).count() as u64;
                for length in 0..=40 {
                    assert_eq!(timer.taken(length), between(0, length), "{timer:?} {length}");
                    assert!((0..p).all(|start| between(start, start + length) <= timer.taken(length)));
                }
            }
        }
    }
}
