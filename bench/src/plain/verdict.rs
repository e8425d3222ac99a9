//! The verdict looks at the demand in every length, from 1 up, with servers and taken ticks counted.

use super::table::{read_table, Row, Server, Table, Timer};
use super::Refused;

/// Returns none where the table is feasible, and else the smallest length whose demand is above it, and that demand.
pub fn judge(bytes: &[u8]) -> Result<Option<(u64, u64)>, Refused> {
    let table = read_table(bytes)?;
    let growth: u64 = table.rows.iter().map(|row| table.period / row.y * row.x * row.c).sum();
    let served: u64 = table.servers.iter().map(|server| table.period / server.b * server.a).sum();
    let taken = table.period / table.timer.p * table.timer.s;
    let last = if growth + served + taken <= table.period {
        table.period + table.rows.iter().map(|row| row.d).max().unwrap_or(0)
    } else {
        // Some length fails, so the search comes to its end.
        u64::MAX
    };
    Ok(scan(&table, last))
}

/// Says whether the first lengths fit, so many of them. Where a whole search would take too long, this part of it is timed.
pub fn fits_to(bytes: &[u8], last: u64) -> Result<bool, Refused> {
    Ok(scan(&read_table(bytes)?, last).is_none())
}

/// Looks at the lengths from 1 to the last one.
fn scan(table: &Table, last: u64) -> Option<(u64, u64)> {
    for length in 1..=last {
        let asked: u64 = table.rows.iter().map(|row| row_demand(row, length)).sum();
        let served: u64 = table.servers.iter().map(|server| server_demand(server, length)).sum();
        let demand = taken_ticks(&table.timer, length) + asked + served;
        if demand > length {
            return Some((length, demand));
        }
    }
    None
}

/// Returns how many ticks the timer takes in a length from clock 0. No other window of this length has more of them.
fn taken_ticks(timer: &Timer, length: u64) -> u64 {
    length / timer.p * timer.s + timer.s.min(length % timer.p)
}

fn server_demand(server: &Server, length: u64) -> u64 {
    server.a * length / server.b
}

fn row_demand(row: &Row, length: u64) -> u64 {
    if length < row.d {
        return 0;
    }
    ((length - row.d) / row.y + 1) * row.x * row.c
}
