//! Where both programs say the same, this says whether they are right. Verdicts of small tables are judged by the
//! definition: every length is looked at, from 1 up. No replay on a feasible table has a late job.

use super::case::{Call, Case, Outcome};
use super::tables::lengths_to_look_at;
use second::host::{FEASIBLE, LATE, OVERLOADED};
use second::table;
use second::verdict::{verdict, Verdict};

/// As many lengths as are looked at.
const PATIENCE: u64 = 1_000;

/// Says whether an outcome is wrong. Verdicts that take too many lengths are let through.
pub fn contradicts(case: &Case, outcome: &Outcome) -> bool {
    if case.call == Call::Replay && outcome.status == LATE {
        return table::read(&case.table).is_ok_and(|table| verdict(&table) == Verdict::Feasible);
    }
    let judged = case.call == Call::Verdict && [FEASIBLE, OVERLOADED].contains(&outcome.status);
    if !judged || lengths_to_look_at(&case.table) > PATIENCE {
        return false;
    }
    let table = table::read(&case.table).expect("a table with a verdict is accepted");
    let of_rows: u64 = table.rows.iter().map(|row| row.x * row.c * (table.period / row.y)).sum();
    let of_servers: u64 = table.servers.iter().map(|server| server.a * (table.period / server.b)).sum();
    let sum_is_above_1 = of_rows + of_servers + table.timer.s * (table.period / table.timer.p) > table.period;
    let mut taken = 0;
    let mut length = 0;
    let (status, first, second) = loop {
        length += 1;
        taken += u64::from((length - 1) % table.timer.p < table.timer.s);
        let in_use = table.rows.iter().filter(|row| row.d <= length);
        let of_rows: u64 = in_use.map(|row| ((length - row.d) / row.y + 1) * row.x * row.c).sum();
        let of_servers: u64 = table.servers.iter().map(|server| server.a * length / server.b).sum();
        let demand = of_rows + of_servers + taken;
        if demand > length {
            break (OVERLOADED, length, demand);
        }
        if !sum_is_above_1 && length >= table.period + table.largest_d() {
            break (FEASIBLE, 0, 0);
        }
    };
    let answer = [first.to_le_bytes(), second.to_le_bytes()].concat();
    (outcome.status, &outcome.answer) != (status, &answer)
}
