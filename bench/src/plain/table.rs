//! Tables are read and tested here: the timer, the rows and the servers. The timer says which ticks it takes.

use super::numbers::{bad_byte, read};
use super::Refused;

pub const ROWS: u64 = 64;
pub const SERVERS: u64 = 8;
pub const X: u64 = 64;
const Y: u64 = 4_096;
const D: u64 = 16_384;
/// No job of a row costs more than this, and no odd job.
pub const C: u64 = 4_096;
const P: u64 = 4_096;
const B: u64 = 4_096;
const PERIOD: u64 = 1_048_576;

/// The timer takes the first s ticks of every p, counted from clock 0.
#[derive(Clone, Copy)]
pub struct Timer {
    pub s: u64,
    pub p: u64,
}

impl Timer {
    /// Says whether the tick at a clock is taken.
    #[inline]
    pub fn takes(&self, clock: u64) -> bool {
        clock % self.p < self.s
    }

    pub fn in_range(&self) -> bool {
        (1..=P).contains(&self.p) && self.s < self.p
    }
}

#[derive(Clone, Copy)]
pub struct Row {
    pub x: u64,
    pub y: u64,
    pub d: u64,
    pub c: u64,
}

impl Row {
    /// Says whether all four values are in range and the row is not hopeless.
    #[inline]
    pub fn in_range(&self) -> bool {
        let Row { x, y, d, c } = *self;
        (1..=X).contains(&x) && (1..=Y).contains(&y) && (1..=D).contains(&d) && (1..=C).contains(&c) && c <= d
    }
}

/// A server gives its odd jobs a units in b ticks.
#[derive(Clone, Copy)]
pub struct Server {
    pub a: u64,
    pub b: u64,
}

impl Server {
    #[inline]
    pub fn in_range(&self) -> bool {
        1 <= self.a && self.a <= self.b && self.b <= B
    }
}

pub struct Table {
    pub timer: Timer,
    pub rows: Vec<Row>,
    pub servers: Vec<Server>,
    /// The period is H, the least common multiple of p, the y of all rows and the b of all servers.
    pub period: u64,
}

pub fn read_table(bytes: &[u8]) -> Result<Table, Refused> {
    let mut at = 0;
    let s = number(bytes, &mut at)?;
    let p = value(bytes, &mut at, 1, P)?;
    if s >= p {
        return Err(Refused(3, 0));
    }
    let length = count(bytes, &mut at, ROWS)?;
    let mut rows = Vec::with_capacity(length);
    for _ in 0..length {
        let x = value(bytes, &mut at, 1, X)?;
        let y = value(bytes, &mut at, 1, Y)?;
        let d = value(bytes, &mut at, 1, D)?;
        let place = at;
        let c = value(bytes, &mut at, 1, C)?;
        if c > d {
            return Err(Refused(16, place));
        }
        rows.push(Row { x, y, d, c });
    }
    let length = count(bytes, &mut at, SERVERS)?;
    let mut servers = Vec::with_capacity(length);
    for _ in 0..length {
        let a = value(bytes, &mut at, 1, B)?;
        let b = value(bytes, &mut at, a, B)?;
        servers.push(Server { a, b });
    }
    if at < bytes.len() {
        return Err(Refused(4, at));
    }
    let mut period = p;
    for length in rows.iter().map(|row| row.y).chain(servers.iter().map(|server| server.b)) {
        period = period / greatest_divisor(period, length) * length;
        if period > PERIOD {
            return Err(Refused(5, bytes.len()));
        }
    }
    Ok(Table { timer: Timer { s, p }, rows, servers, period })
}

fn number(bytes: &[u8], at: &mut usize) -> Result<u64, Refused> {
    let (value, next) = read(bytes, *at).ok_or_else(|| Refused(1, bad_byte(bytes, *at)))?;
    *at = next;
    Ok(value)
}

fn count(bytes: &[u8], at: &mut usize, most: u64) -> Result<usize, Refused> {
    let place = *at;
    let count = number(bytes, at)?;
    if count > most {
        return Err(Refused(2, place));
    }
    Ok(count as usize)
}

fn value(bytes: &[u8], at: &mut usize, least: u64, most: u64) -> Result<u64, Refused> {
    let place = *at;
    let value = number(bytes, at)?;
    if value < least || value > most {
        return Err(Refused(3, place));
    }
    Ok(value)
}

fn greatest_divisor(mut a: u64, mut b: u64) -> u64 {
    while a > 0 {
        (a, b) = (b % a, a);
    }
    b
}
