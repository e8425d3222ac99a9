//! Tables as numbers, and how random ones are made: with a given period, with a given sum, and with the smallest d.

use crate::cases::{table, Random, Row, Server, Timer};

/// No y, b, c or p is above this.
pub const MOST: u64 = 4_096;
/// No d is above this.
pub const MOST_D: u64 = 16_384;

#[derive(Clone)]
pub struct Table {
    pub timer: Timer,
    pub rows: Vec<Row>,
    pub servers: Vec<Server>,
}

impl Table {
    pub fn new(timer: Timer, rows: Vec<Row>, servers: Vec<Server>) -> Table {
        Table { timer, rows, servers }
    }

    pub fn bytes(&self) -> Vec<u8> {
        table(self.timer, &self.rows, &self.servers)
    }

    /// The timer is a term too: its taken ticks are counted in every length.
    pub fn terms(&self) -> u64 {
        1 + self.rows.len() as u64 + self.servers.len() as u64
    }

    /// Returns H.
    pub fn period(&self) -> u64 {
        let rows = self.rows.iter().map(|row| row[1]);
        rows.chain(self.servers.iter().map(|server| server[1])).fold(self.timer.p, common_multiple)
    }

    /// Returns the demand that is added in every period of h ticks, once all rows have begun.
    pub fn growth(&self, h: u64) -> u64 {
        let rows: u64 = self.rows.iter().map(|[x, y, _, c]| h / y * x * c).sum();
        let servers: u64 = self.servers.iter().map(|[a, b]| h / b * a).sum();
        h / self.timer.p * self.timer.s + rows + servers
    }

    pub fn largest_d(&self) -> u64 {
        self.rows.iter().map(|row| row[2]).max().unwrap_or(0)
    }

    pub fn demand(&self, length: u64) -> u64 {
        let asked = |&[x, y, d, c]: &Row| if length < d { 0 } else { ((length - d) / y + 1) * x * c };
        self.rows.iter().map(asked).sum::<u64>() + self.demand_beside_rows(length)
    }

    fn demand_beside_rows(&self, length: u64) -> u64 {
        let Timer { s, p } = self.timer;
        let served: u64 = self.servers.iter().map(|[a, b]| a * length / b).sum();
        length / p * s + s.min(length % p) + served
    }

    /// Returns for each length to H + the largest d how much longer it is than its demand. They settle a sum of at most 1.
    fn slack(&self) -> Vec<i64> {
        let last = self.period() + self.largest_d();
        let mut slack: Vec<i64> =
            (0..=last).map(|length| length as i64 - self.demand_beside_rows(length) as i64).collect();
        for &row in &self.rows {
            shift(&mut slack, row, -1);
        }
        slack
    }

    /// Says whether all lengths to H + the largest d fit. A table of a sum of at most 1 is feasible then.
    pub fn fits(&self) -> bool {
        self.slack().iter().all(|&slack| slack >= 0)
    }

    /// Returns the smallest length to H + the largest d that does not fit.
    pub fn witness(&self) -> Option<u64> {
        self.slack().iter().position(|&slack| slack < 0).map(|length| length as u64)
    }

    /// Returns the least slack in the period of lengths past the largest d.
    pub fn least_slack(&self) -> i64 {
        self.slack().into_iter().skip(self.largest_d() as usize + 1).min().unwrap_or(0)
    }

    /// Makes each d as small as still fits, row after row. Returns none where the table is not feasible as it is.
    pub fn tight(mut self) -> Option<Table> {
        let mut slack = self.slack();
        if slack.iter().any(|&slack| slack < 0) {
            return None;
        }
        for row in &mut self.rows {
            shift(&mut slack, *row, 1);
            row[2] = least_d(&slack, *row);
            shift(&mut slack, *row, -1);
        }
        Some(self)
    }
}

/// Adds a row's demand to every slack, or takes it away.
fn shift(slack: &mut [i64], [x, y, d, c]: Row, sign: i64) {
    for (steps, stretch) in (1..).zip(slack[d as usize..].chunks_mut(y as usize)) {
        let demand = sign * steps * (x * c) as i64;
        stretch.iter_mut().for_each(|slack| *slack += demand);
    }
}

/// Returns the smallest d with which a row fits into what the others leave.
fn least_d(slack: &[i64], [x, y, _, c]: Row) -> u64 {
    let (y, step) = (y as i64, (x * c) as i64);
    let mut least = c as i64;
    // This many steps of the row's demand may not all be behind us at the length that is looked at.
    let mut steps = slack.len() as i64 / y + 2;
    for (length, &slack) in slack.iter().enumerate().rev() {
        while slack < steps * step {
            least = least.max(length as i64 + 1 - (steps - 1) * y);
            steps -= 1;
        }
    }
    least as u64
}

/// A period, and two lengths of at most 4,096 whose least common multiple it is. So any large enough sum in parts of h is
/// a sum of parts of these two.
#[derive(Clone, Copy)]
pub struct Period {
    pub h: u64,
    pub two: [u64; 2],
}

impl Period {
    pub fn of(two: [u64; 2]) -> Period {
        Period { h: common_multiple(two[0], two[1]), two }
    }

    /// Returns a random period from `least` to `most`, of two lengths of at most `length`.
    pub fn random(random: &mut Random, length: u64, least: u64, most: u64) -> Period {
        loop {
            let period = Period::of([1 + random.below(length), 1 + random.below(length)]);
            if (least..=most).contains(&period.h) {
                return period;
            }
        }
    }

    /// Returns a random period from 2^19 to 2^20.
    pub fn large(random: &mut Random) -> Period {
        Period::random(random, MOST, 1 << 19, 1 << 20)
    }

    /// Returns the divisors of the period from `least` to `most`, as lengths for rows and servers.
    pub fn divisors(&self, least: u64, most: u64) -> Vec<u64> {
        (least..=most).filter(|length| self.h % length == 0).collect()
    }

    /// Returns two parts (numerator and denominator) whose sum is `rest` in parts of h, or none where there are no such two.
    pub fn fill(&self, random: &mut Random, rest: u64) -> Option<[[u64; 2]; 2]> {
        let each = self.two.map(|length| self.h / length);
        let second = |first: u64| {
            let left = rest.checked_sub(first * each[0])?;
            let second = left / each[1];
            (left % each[1] == 0 && (1..=self.two[1]).contains(&second)).then_some([first, second])
        };
        let found: Vec<[u64; 2]> = (1..=self.two[0]).filter_map(second).collect();
        let [first, second] = pick(random, &found)?;
        Some([[first, self.two[0]], [second, self.two[1]]])
    }

    /// Returns two parts that bring the sum of a table to `sum` in parts of h.
    pub fn rest(&self, random: &mut Random, table: &Table, sum: u64) -> Option<[[u64; 2]; 2]> {
        self.fill(random, sum.checked_sub(table.growth(self.h))?)
    }
}

/// Returns a row of one job for a part of the ticks, with d = y.
pub fn row_of([c, y]: [u64; 2]) -> Row {
    [1, y, y, c]
}

/// Returns rows with y from some lengths, and d = y. Their sum is about so many thousandths, of which each has a random part.
pub fn random_rows(random: &mut Random, lengths: &[u64], count: u64, thousandths: u64) -> Option<Vec<Row>> {
    let parts: Vec<u64> = (0..count).map(|_| 1 + random.below(100)).collect();
    let all: u64 = parts.iter().sum();
    let mut row = |part: &u64| {
        let y = pick(random, lengths)?;
        let x = 1 + random.below(3);
        Some([x, y, y, (y * thousandths * part / (1_000 * all * x)).max(1)])
    };
    parts.iter().map(&mut row).collect()
}

/// Returns rows of cost 1 with y from some lengths, and d = y, at most so many. Their sum is at most so many thousandths.
pub fn rows_of_cost_1(random: &mut Random, lengths: &[u64], count: u64, thousandths: u64) -> Option<Vec<Row>> {
    rows_of_cost_to(random, 1, lengths, count, thousandths)
}

/// Returns rows like these of costs from 1 to `most`.
pub fn rows_of_cost_to(
    random: &mut Random,
    most: u64,
    lengths: &[u64],
    count: u64,
    thousandths: u64,
) -> Option<Vec<Row>> {
    let mut rows = Vec::new();
    let mut parts = 0.0;
    for _ in 0..count {
        let y = pick(random, lengths)?;
        let c = if most == 1 { 1 } else { 1 + random.below(most) };
        if parts + c as f64 / y as f64 <= thousandths as f64 / 1_000.0 {
            parts += c as f64 / y as f64;
            rows.push([1, y, y, c]);
        }
    }
    Some(rows)
}

pub fn pick<T: Copy>(random: &mut Random, from: &[T]) -> Option<T> {
    match from.len() as u64 {
        0 => None,
        length => Some(from[random.below(length) as usize]),
    }
}

fn common_multiple(a: u64, b: u64) -> u64 {
    a / greatest_divisor(a, b) * b
}

fn greatest_divisor(mut a: u64, mut b: u64) -> u64 {
    while a > 0 {
        (a, b) = (b % a, a);
    }
    b
}
