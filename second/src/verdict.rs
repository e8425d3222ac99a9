//! Demand and verdict. A table is overloaded where a length of time has more demand than length.

use crate::table::{Server, Table};

#[derive(Clone, Copy, Debug, PartialEq, Eq)]
pub enum Verdict {
    Feasible,
    /// The answer is the smallest length whose demand is above it, and that demand.
    Overloaded {
        length: u64,
        demand: u64,
    },
}

/// Returns the verdict. A row's demand grows only at the lengths d, d + y, d + 2y and so on, and a server's only where
/// a * L / b comes to the next whole number. These are the steps. With a taken tick the demand goes up by one, but so
/// does the length. So the smallest length that fails is a step of a row or of a server. The steps are gone through in
/// order, and the rows' demand is kept up to date from one to the next.
///
/// From the largest d on everything repeats: one period H later there is the same step again, and the demand is higher
/// by a fixed number. So the steps of one period say for every later period whether and when that step fails.
pub fn verdict(table: &Table) -> Verdict {
    let rows_per_period: u64 = table.rows.iter().map(|row| row.x * row.c * (table.period / row.y)).sum();
    let servers_per_period: u64 = table.servers.iter().map(|server| server.a * (table.period / server.b)).sum();
    let per_period = rows_per_period + servers_per_period + table.timer.s * (table.period / table.timer.p);
    let gain = per_period.saturating_sub(table.period);
    let largest_d = table.largest_d();

    let mut row_steps: Vec<u64> = table.rows.iter().map(|row| row.d).collect();
    let mut server_steps: Vec<u64> = table.servers.iter().map(|server| step_after(server, 0)).collect();
    let mut of_rows = 0;
    let mut earliest_later = None;
    while let Some(&length) =
        row_steps.iter().chain(&server_steps).min().filter(|&&step| step <= largest_d + table.period)
    {
        for (row, step) in table.rows.iter().zip(&mut row_steps) {
            if *step == length {
                of_rows += row.x * row.c;
                *step += row.y;
            }
        }
        for (server, step) in table.servers.iter().zip(&mut server_steps) {
            if *step == length {
                *step = step_after(server, length);
            }
        }
        let of_servers: u64 = table.servers.iter().map(|server| server.demand(length)).sum();
        let demand = of_rows + of_servers + table.timer.taken(length);
        if demand > length {
            return Verdict::Overloaded { length, demand };
        }
        if gain > 0 && length > largest_d {
            let periods = (length - demand) / gain + 1;
            let later = (length + periods * table.period, demand + periods * per_period);
            earliest_later = earliest_later.into_iter().chain([later]).min();
        }
    }
    match earliest_later {
        None => Verdict::Feasible,
        Some((length, demand)) => Verdict::Overloaded { length, demand },
    }
}

/// Returns the next length at which a server's demand grows.
fn step_after(server: &Server, length: u64) -> u64 {
    ((server.demand(length) + 1) * server.b).div_ceil(server.a)
}

#[cfg(test)]
mod tests {
    use super::*;
    use crate::table;

    const V3: [[u64; 4]; 2] = [[1, 4, 4, 2], [1, 6, 6, 3]];

    fn table_of(timer: [u64; 2], rows: &[[u64; 4]]) -> Table {
        table_with(timer, rows, &[])
    }

    fn table_with(timer: [u64; 2], rows: &[[u64; 4]], servers: &[[u64; 2]]) -> Table {
        table::read(&table::tests::spell_all(timer, rows, servers)).unwrap()
    }

    fn overloaded(length: u64, demand: u64) -> Verdict {
        Verdict::Overloaded { length, demand }
    }

    #[test]
    fn examples_v1_to_v8() {
        let judge = |rows: &[[u64; 4]]| verdict(&table_of([0, 1], rows));
        assert_eq!(judge(&[]), Verdict::Feasible);
        assert_eq!(judge(&[[1, 2, 6, 1]]), Verdict::Feasible);
        assert_eq!(judge(&V3), Verdict::Feasible);
        assert_eq!(judge(&[[1, 4, 3, 2], [1, 6, 5, 3]]), overloaded(11, 12));
        assert_eq!(judge(&[[3, 6, 6, 2]]), Verdict::Feasible);
        assert_eq!(judge(&[[3, 6, 5, 2]]), overloaded(5, 6));
        assert_eq!(judge(&[[2, 1, 1, 1]]), overloaded(1, 2));
        assert_eq!(judge(&[[1, 2, 10, 3]]), overloaded(26, 27));
    }

    #[test]
    fn examples_t1_to_t7() {
        let judge = |timer, rows: &[[u64; 4]]| verdict(&table_of(timer, rows));
        assert_eq!(judge([1, 4], &[]), Verdict::Feasible);
        assert_eq!(judge([1, 4], &[[1, 4, 4, 3]]), Verdict::Feasible);
        assert_eq!(demand(&table_of([1, 4], &[[1, 4, 4, 3]]), 4), 4);
        assert_eq!(judge([0, 12], &V3), Verdict::Feasible);
        assert_eq!(demand(&table_of([0, 12], &V3), 12), 12);
        assert_eq!(judge([1, 12], &V3), overloaded(12, 13));
        assert_eq!(judge([3, 4], &[[1, 4, 3, 1]]), overloaded(3, 4));
        assert_eq!(judge([2, 5], &[[1, 10, 7, 4]]), overloaded(7, 8));
        assert_eq!(judge([1, 2], &[[1, 2, 10, 2]]), overloaded(18, 19));
    }

    #[test]
    fn examples_s2_to_s8() {
        let judge = |timer, rows: &[[u64; 4]], servers: &[[u64; 2]]| verdict(&table_with(timer, rows, servers));
        assert_eq!(judge([0, 1], &[], &[[1, 4]]), Verdict::Feasible);
        assert_eq!(judge([0, 1], &[], &[[4_096, 4_096]]), Verdict::Feasible);
        assert_eq!(judge([0, 1], &V3, &[[1, 12]]), overloaded(12, 13));
        assert_eq!(judge([0, 1], &[], &[[1, 1], [1, 4_096]]), overloaded(4_096, 4_097));
        assert_eq!(judge([1, 4], &[], &[[3, 4]]), Verdict::Feasible);
        assert_eq!(judge([1, 4], &[], &[[4, 5]]), overloaded(5, 6));
        assert_eq!(judge([0, 1], &[[1, 4, 7, 2]], &[[1, 3], [1, 4]]), overloaded(36, 37));
        for length in 1..=10_000 {
            assert_eq!(demand(&table_with([0, 1], &[], &[[4_096, 4_096]]), length), length);
            assert_eq!(demand(&table_with([1, 4], &[], &[[3, 4]]), length), length);
        }
    }

    /// Returns a table's demand in a length of time, as the rule has it. The taken ticks are counted one by one.
    fn demand(table: &Table, length: u64) -> u64 {
        let of_rows = table.rows.iter().filter(|row| length >= row.d);
        let of_rows: u64 = of_rows.map(|row| ((length - row.d) / row.y + 1) * row.x * row.c).sum();
        let of_servers: u64 = table.servers.iter().map(|server| server.a * length / server.b).sum();
        let taken = (0..length).filter(|&tick| table.timer.takes(tick)).count() as u64;
        of_rows + of_servers + taken
    }

    #[test]
    fn demand_starts_at_d_and_at_the_first_taken_tick() {
        let at = |timer, lengths: [u64; 7]| lengths.map(|length| demand(&table_of(timer, &V3), length));
        assert_eq!(at([0, 1], [1, 3, 4, 5, 6, 8, 12]), [0, 0, 2, 2, 5, 7, 12]);
        assert_eq!(at([0, 12], [1, 3, 4, 5, 6, 8, 12]), [0, 0, 2, 2, 5, 7, 12]);
        assert_eq!(at([2, 3], [1, 2, 3, 4, 5, 6, 7]), [1, 2, 2, 5, 6, 9, 10]);
    }

    /// Returns the verdict by the definition: it looks at every length from 1 up to the bound that settles it.
    fn verdict_by_definition(table: &Table) -> Verdict {
        let of_rows: u64 = table.rows.iter().map(|row| row.x * row.c * table.period / row.y).sum();
        let of_servers: u64 = table.servers.iter().map(|server| server.a * table.period / server.b).sum();
        let sum = of_rows + of_servers + table.timer.s * table.period / table.timer.p;
        let periods = if sum <= table.period { 1 } else { table.largest_d() + 1 };
        (1..=periods * table.period + table.largest_d())
            .find(|&length| demand(table, length) > length)
            .map_or(Verdict::Feasible, |length| overloaded(length, demand(table, length)))
    }

    fn small_rows(most_d: u64, most_c: u64) -> Vec<[u64; 4]> {
        let mut rows = vec![];
        for (x, y) in [(1, 1), (1, 2), (1, 3), (2, 3), (1, 5), (2, 5), (1, 6)] {
            for d in [1, 2, 3, 4, 5, 7, 11, 20].into_iter().filter(|&d| d <= most_d) {
                rows.extend((1..=d.min(most_c)).map(|c| [x, y, d, c]));
            }
        }
        rows
    }

    #[test]
    fn agrees_with_the_definition_on_every_small_table_of_two_rows() {
        let rows = small_rows(20, 4);
        for first in &rows {
            for second in &rows {
                let table = table_of([0, 1], &[*first, *second]);
                assert_eq!(verdict(&table), verdict_by_definition(&table), "{first:?} {second:?}");
            }
        }
    }

    #[test]
    fn agrees_with_the_definition_on_every_small_table_of_a_timer_and_one_row() {
        for p in 1..=8 {
            for s in 0..p {
                for row in small_rows(20, 20) {
                    let table = table_of([s, p], &[row]);
                    assert_eq!(verdict(&table), verdict_by_definition(&table), "{s} of {p}, {row:?}");
                }
            }
        }
    }

    #[test]
    fn agrees_with_the_definition_on_small_tables_of_a_timer_and_two_rows() {
        let rows = small_rows(7, 3);
        let mut met = [0, 0, 0];
        for timer in [[0, 3], [1, 2], [1, 3], [2, 3], [1, 4], [1, 6], [3, 6], [5, 6], [1, 7], [1, 12], [7, 8]] {
            for (first, second) in
                rows.iter().zip(1..).flat_map(|(first, next)| rows[next..].iter().map(move |second| (first, second)))
            {
                let table = table_of(timer, &[*first, *second]);
                let found = verdict(&table);
                assert_eq!(found, verdict_by_definition(&table), "{timer:?} {first:?} {second:?}");
                let kind = match found {
                    Verdict::Feasible => 0,
                    Verdict::Overloaded { length, .. } if length <= table.period + table.largest_d() => 1,
                    Verdict::Overloaded { .. } => 2,
                };
                met[kind] += u64::from(timer[0] > 0);
            }
        }
        assert!(met.iter().all(|&count| count > 100), "{met:?}");
    }

    #[test]
    fn agrees_with_the_definition_on_random_small_tables() {
        let mut state: u64 = 1;
        let mut below = |bound: u64| {
            state = state.wrapping_mul(0x5851_f42d_4c95_7f2d).wrapping_add(1);
            (state >> 33) % bound
        };
        for _ in 0..20_000 {
            let p = 1 + below(12);
            let timer = [below(p), p];
            let rows: Vec<[u64; 4]> = (0..below(5))
                .map(|_| {
                    let (y, d) = (1 + below(12), 1 + below(24));
                    [1 + below(2), y, d, 1 + below(d.min(4))]
                })
                .collect();
            let servers: Vec<[u64; 2]> = (0..below(4) * below(2))
                .map(|_| {
                    let b = 1 + below(12);
                    [1 + below(b.div_ceil(2)), b]
                })
                .collect();
            let table = table_with(timer, &rows, &servers);
            if table.period <= 120 {
                assert_eq!(verdict(&table), verdict_by_definition(&table), "{timer:?} {rows:?} {servers:?}");
            }
        }
    }

    #[test]
    fn agrees_with_the_definition_on_small_tables_of_a_timer_one_row_and_servers() {
        let servers: [&[[u64; 2]]; 9] = [
            &[[1, 2]],
            &[[2, 4]],
            &[[2, 3]],
            &[[3, 3]],
            &[[1, 5], [1, 5]],
            &[[1, 3], [1, 4]],
            &[[1, 2], [1, 2], [1, 6]],
            &[[4, 5], [1, 6]],
            &[[1, 8]; 8],
        ];
        // These are feasible; overloaded at a row's step, at another length, and past H and the largest d.
        let mut met = [0; 4];
        for timer in [[0, 1], [0, 7], [1, 2], [1, 4], [2, 5], [5, 6]] {
            for row in small_rows(20, 4) {
                for servers in servers {
                    let table = table_with(timer, &[row], servers);
                    let found = verdict(&table);
                    assert_eq!(found, verdict_by_definition(&table), "{timer:?} {row:?} {servers:?}");
                    let [_, y, d, _] = row;
                    let kind = match found {
                        Verdict::Feasible => 0,
                        Verdict::Overloaded { length, .. } if length > table.period + table.largest_d() => 3,
                        Verdict::Overloaded { length, .. } => usize::from(length < d || (length - d) % y != 0) + 1,
                    };
                    met[kind] += 1;
                }
            }
        }
        assert!(met.iter().all(|&count| count > 100), "{met:?}");
    }

    #[test]
    fn servers_alone_are_feasible_up_to_the_whole_processor() {
        let judge = |servers: &[[u64; 2]]| verdict(&table_with([0, 1], &[], servers));
        for (a, b) in [(1, 1), (1, 2), (1, 4_096), (4_095, 4_096), (4_096, 4_096), (512, 1_024), (7, 9)] {
            assert_eq!(judge(&[[a, b]]), Verdict::Feasible, "{a} of {b}");
            assert_eq!(judge(&[[a, b], [b - a + u64::from(a == b), b]]) == Verdict::Feasible, a < b, "{a} of {b}");
        }
        assert_eq!(judge(&[[1, 8]; 8]), Verdict::Feasible);
        assert_eq!(judge(&[[512, 4_096]; 8]), Verdict::Feasible);
        assert_eq!(judge(&[[1, 7]; 8]), overloaded(7, 8));
        assert_eq!(judge(&[[4_096, 4_096]; 8]), overloaded(1, 8));
        assert_eq!(judge(&[[1_022, 1_023], [2, 1_025]]), overloaded(1_538, 1_539));
    }

    #[test]
    fn a_timer_alone_is_feasible() {
        for p in (1..=70).chain([127, 128, 4_095, 4_096]) {
            for s in (0..p.min(70)).chain([p - 1]) {
                assert_eq!(verdict(&table_of([s, p], &[])), Verdict::Feasible, "{s} of {p}");
            }
        }
    }

    #[test]
    fn a_timer_that_takes_no_tick_leaves_the_verdict_as_it_was() {
        for row in small_rows(20, 20) {
            let without = verdict(&table_of([0, 1], &[row]));
            for p in [2, 5, 7, 60, 4_096] {
                assert_eq!(verdict(&table_of([0, p], &[row])), without, "{p} {row:?}");
            }
        }
    }

    #[test]
    fn all_ticks_but_one_are_taken() {
        let judge = |d| verdict(&table_of([4_095, 4_096], &[[1, 4_096, d, 1]]));
        assert_eq!(judge(4_095), overloaded(4_095, 4_096));
        assert_eq!(judge(4_096), Verdict::Feasible);
        assert_eq!(verdict(&table_of([4_095, 4_096], &[[1, 4_096, 8_192, 2]])), overloaded(12_288, 12_289));
    }

    #[test]
    fn the_latest_witness_costs_no_more_than_one_period() {
        // The two rows take 1023 / 1023 and 1 / 1025 of the processor, which is above 1 by 1 / 1025. In the second
        // table the timer takes 1 / 1025 instead, and in the third a server.
        let long = [1, 1_023, 16_384, 1_023];
        for table in [
            table_of([0, 1], &[long, [1, 1_025, 16_384, 1]]),
            table_of([1, 1_025], &[long]),
            table_with([0, 1], &[long], &[[1, 1_025]]),
        ] {
            let Verdict::Overloaded { length, demand: stated } = verdict(&table) else { panic!("feasible") };
            assert!(length > 10 * (1_048_575 + 16_384));
            let mut taken = 0;
            let mut first = None;
            for length in 1..=length {
                taken += u64::from(table.timer.takes(length - 1));
                let of_rows = table.rows.iter().filter(|row| length >= row.d);
                let of_servers: u64 = table.servers.iter().map(|server| server.a * length / server.b).sum();
                let of_rows: u64 = of_rows.map(|row| ((length - row.d) / row.y + 1) * row.c).sum();
                let demand = of_rows + of_servers + taken;
                if first.is_none() && demand > length {
                    first = Some((length, demand));
                }
            }
            assert_eq!(first, Some((length, stated)));
        }
    }
}
