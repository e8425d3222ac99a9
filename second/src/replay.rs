//! Replay makes a script's releases at their times, and a log of the jobs in the order of finishing.

use crate::numbers;
use crate::refusal::{Reason, Refusal};
use crate::run::{Given, Job, Run, LAST_TICK};
use crate::script;
use crate::table::Table;

#[derive(Clone, Debug, Default, PartialEq, Eq)]
pub struct Replayed {
    /// There is one record for each job, in the order of finishing: the spellings of its serial, row number, release,
    /// due time and finish.
    pub records: Vec<Vec<u8>>,
    /// This many jobs finished after their due time.
    pub late: u64,
}

impl Replayed {
    pub fn log(&self) -> Vec<u8> {
        self.records.concat()
    }
}

/// Plays a whole script and spells the whole log, however long it is. The caller tests whether the log fits its buffer,
/// since that refusal comes last of all.
pub fn replay(table: &Table, script: &[u8]) -> Result<Replayed, Refusal> {
    let mut player = Player { run: Run::fresh(table.clone()), jobs: vec![], replayed: Replayed::default() };
    let mut time = 0;
    let mut place = 0;
    while place < script.len() {
        let (gap, row_place) = script::number(script, place)?;
        time += gap;
        if time > LAST_TICK {
            return Err(Reason::TimeTooLate.at(place));
        }
        let (row, cost_place) = script::number(script, row_place)?;
        let named = table.named(row).ok_or(Reason::NoSuchRow.at(row_place))?;
        let (cost, after) = script::number(script, cost_place)?;
        if cost < 1 || cost > named.most_cost() {
            return Err(Reason::CostOutOfRange.at(cost_place));
        }
        player.tick_until(time);
        let job = player.run.release(row, cost).map_err(|reason| reason.at(place))?;
        player.jobs.push(job);
        place = after;
    }
    while !player.run.pending().is_empty() {
        player.tick().map_err(|reason| reason.at(script.len()))?;
    }
    Ok(player.replayed)
}

struct Player {
    run: Run,
    /// The jobs stand at the places that their serials name.
    jobs: Vec<Job>,
    replayed: Replayed,
}

impl Player {
    fn tick(&mut self) -> Result<(), Reason> {
        let ticked = self.run.tick()?;
        if let Given::Ran { serial, finished: true } = ticked.given {
            let job = &self.jobs[serial as usize];
            let finish = self.run.clock();
            let numbers = [serial, job.row, job.release, job.due, finish];
            let spelled = numbers.map(|number| numbers::spell(number).expect("serials and times can be spelled"));
            self.replayed.records.push(spelled.concat());
            if finish > job.due {
                self.replayed.late += 1;
            }
        }
        Ok(())
    }

    fn tick_until(&mut self, time: u64) {
        while self.run.clock() < time {
            if self.run.pending().is_empty() {
                self.run.pass_until(time);
            } else {
                self.tick().expect("a script time is at most 2^40");
            }
        }
    }
}

#[cfg(test)]
mod tests {
    use super::*;
    use crate::run::MOST_PENDING;
    use crate::table::tests::spell_all;
    use crate::table::{self, MOST_ODD_COST, MOST_X};
    use crate::verdict::{verdict, Verdict};

    const R1: [u8; 9] = [0, 0, 2, 0, 1, 3, 4, 0, 2];

    fn play(rows: &[[u64; 4]], script: &[u8]) -> Result<Replayed, (u32, usize)> {
        play_with([0, 1], rows, script)
    }

    fn play_with(timer: [u64; 2], rows: &[[u64; 4]], script: &[u8]) -> Result<Replayed, (u32, usize)> {
        play_all(timer, rows, &[], script)
    }

    fn play_all(
        timer: [u64; 2],
        rows: &[[u64; 4]],
        servers: &[[u64; 2]],
        script: &[u8],
    ) -> Result<Replayed, (u32, usize)> {
        let table = table::read(&spell_all(timer, rows, servers)).unwrap();
        replay(&table, script).map_err(|refusal| (refusal.reason.number(), refusal.place))
    }

    fn script(records: &[[u64; 3]]) -> Vec<u8> {
        records.iter().flatten().flat_map(|&number| numbers::spell(number).unwrap()).collect()
    }

    #[test]
    fn example_r1() {
        let records = vec![vec![0, 0, 0, 4, 2], vec![1, 1, 0, 6, 5], vec![2, 0, 4, 8, 7]];
        assert_eq!(play(&[[1, 4, 4, 2], [1, 6, 6, 3]], &R1), Ok(Replayed { records, late: 0 }));
    }

    #[test]
    fn example_r2() {
        let records = vec![vec![0, 0, 0, 6, 3], vec![1, 1, 0, 8, 7]];
        let rows = [[1, 8, 6, 2], [1, 8, 8, 3]];
        assert_eq!(play_with([1, 4], &rows, &[0, 0, 2, 0, 1, 3]), Ok(Replayed { records, late: 0 }));
    }

    #[test]
    fn example_r3() {
        let records = vec![vec![0, 0, 0, 4, 2], vec![1, 1, 0, 4, 3], vec![2, 1, 1, 12, 5]];
        let script = [0, 0, 2, 0, 1, 1, 1, 1, 2];
        assert_eq!(play_all([0, 1], &[[1, 4, 4, 2]], &[[1, 4]], &script), Ok(Replayed { records, late: 0 }));
    }

    #[test]
    fn refusals_of_an_odd_jobs_record_in_order() {
        let play = |script: &[u8]| play_all([0, 1], &[[1, 4, 4, 2]], &[[1, 4], [1, 4_096]], script);
        assert_eq!(play(&[0, 3, 1]), Err((6, 1)));
        assert_eq!(play(&[0, 3, 0x80, 0x00]), Err((6, 1)));
        assert_eq!(play(&script(&[[0, 1 << 32, 1]])), Err((6, 1)));
        assert_eq!(play(&[0, 2, 0x80, 0x00]), Err((14, 3)));
        assert_eq!(play(&[0, 2]), Err((14, 2)));
        for server in [1, 2] {
            for cost in [0, MOST_ODD_COST + 1, 1 << 32, 1 << 41] {
                assert_eq!(play(&script(&[[0, server, cost]])), Err((7, 2)));
            }
            assert!(play(&script(&[[0, server, MOST_ODD_COST]])).is_ok());
        }
        assert_eq!(play(&script(&[[LAST_TICK - 8, 1, 2]])).map(|replayed| replayed.late), Ok(0));
        assert_eq!(play(&script(&[[LAST_TICK - 7, 1, 2]])), Err((9, 0)));
        assert_eq!(play(&script(&[[LAST_TICK - 11, 1, 1], [3, 1, 2]])), Err((9, 8)));
        assert_eq!(play(&script(&[[LAST_TICK - 12, 1, 1], [3, 1, 2]])).map(|replayed| replayed.late), Ok(0));
        let longest = LAST_TICK - (1 << 24);
        assert!(play(&script(&[[longest, 2, MOST_ODD_COST]])).is_ok());
        assert_eq!(play(&script(&[[longest + 1, 2, MOST_ODD_COST]])), Err((9, 0)));
        assert_eq!(play(&script(&[[longest, 2, MOST_ODD_COST], [4_096, 2, 1]])), Err((9, 9)));
        assert_eq!(play(&script(&[[LAST_TICK, 1, 1]])), Err((9, 0)));
    }

    #[test]
    fn odd_jobs_take_places_too() {
        let play = |script: &[u8]| play_all([0, 1], &[[1, 4, 4, 2]], &[[1, 4], [1, 1]], script);
        let burst = |count| script(&(0..count).map(|job: usize| [0, job as u64 % 3, 1]).collect::<Vec<_>>());
        assert!(play(&burst(MOST_PENDING)).is_ok());
        assert_eq!(play(&burst(MOST_PENDING + 1)), Err((8, 3 * MOST_PENDING)));
        assert_eq!(play(&[burst(MOST_PENDING), vec![0, 2, 1]].concat()), Err((8, 3 * MOST_PENDING)));
        assert!(play(&[burst(MOST_PENDING), vec![1, 2, 1]].concat()).is_ok());
    }

    #[test]
    fn an_odd_job_is_due_after_the_one_before_it_even_where_that_has_finished() {
        let row_of = |replayed: &Replayed| replayed.records.iter().map(|record| record[3]).collect::<Vec<u8>>();
        let dues = |script: &[u8]| row_of(&play_all([0, 1], &[], &[[1, 4], [2, 3]], script).unwrap());
        assert_eq!(dues(&[0, 0, 1, 2, 0, 1]), [4, 8]);
        assert_eq!(dues(&[0, 0, 1, 4, 0, 1]), [4, 8]);
        assert_eq!(dues(&[0, 0, 1, 5, 0, 1]), [4, 9]);
        assert_eq!(dues(&[0, 1, 1, 1, 1, 1, 1, 1, 3]), [2, 4, 9]);
    }

    #[test]
    fn no_jobs_no_log() {
        assert_eq!(play(&[], &[]), Ok(Replayed::default()));
    }

    #[test]
    fn finishing_at_the_due_time_is_not_late() {
        let v7 = [[2, 1, 1, 1]];
        assert_eq!(play(&v7, &[0, 0, 1]).unwrap().late, 0);
        assert_eq!(play(&v7, &[0, 0, 1, 0, 0, 1]).unwrap().late, 1);
    }

    #[test]
    fn late_jobs_are_those_that_the_ticks_counted() {
        let rows = [[4, 1, 4, 3], [4, 1, 2, 2]];
        for timer in [[0, 1], [0, 9], [1, 4], [3, 7], [4, 5]] {
            let records: Vec<[u64; 3]> = (0..60).map(|index| [index % 3, index % 2, 1 + index % 2]).collect();
            let replayed = play_with(timer, &rows, &script(&records)).unwrap();

            let (mut run, _) = Run::start(&spell_all(timer, &rows, &[]));
            let mut late = 0;
            for [gap, row, cost] in records {
                late += (0..gap).map(|_| run.tick().unwrap().late).sum::<u64>();
                run.release(row, cost).unwrap();
            }
            while !run.pending().is_empty() {
                late += run.tick().unwrap().late;
            }
            assert!(late > 0);
            assert_eq!(replayed.late, late, "{timer:?}");
        }
    }

    #[test]
    fn jobs_of_a_feasible_table_are_in_time_and_those_of_a_witness_are_not() {
        let mut state: u64 = 1;
        let mut below = |bound: u64| {
            state = state.wrapping_mul(0x5851_f42d_4c95_7f2d).wrapping_add(1);
            (state >> 33) % bound
        };
        let mut met = [0; 4];
        for _ in 0..3_000 {
            let p = 1 + below(8);
            let timer = [below(p), p];
            let row = |below: &mut dyn FnMut(u64) -> u64| {
                let d = 1 + below(30);
                [1 + below(2), 1 + below(20), d, 1 + below(d.min(4))]
            };
            let rows: Vec<[u64; 4]> = (0..=below(3)).map(|_| row(&mut below)).collect();
            let server = |below: &mut dyn FnMut(u64) -> u64| {
                let b = [4, 6, 8, 9, 12, 24][below(6) as usize];
                [1 + below(b / 4), b]
            };
            let servers: Vec<[u64; 2]> = (0..below(4) * below(2)).map(|_| server(&mut below)).collect();
            let table = table::read(&spell_all(timer, &rows, &servers)).unwrap();
            let with_servers = 2 * usize::from(!servers.is_empty());
            match verdict(&table) {
                Verdict::Feasible => {
                    met[with_servers] += 1;
                    let any_job = |_| {
                        let number = below((rows.len() + servers.len()) as u64);
                        let most_cost = rows.get(number as usize).map_or(9, |row| row[3]);
                        [below(9) * below(2), number, 1 + below(most_cost)]
                    };
                    let records: Vec<[u64; 3]> = (0..40).map(any_job).collect();
                    let replayed = play_all(timer, &rows, &servers, &script(&records)).unwrap();
                    assert_eq!(replayed.late, 0, "{timer:?} {rows:?} {servers:?} {records:?}");
                }
                Verdict::Overloaded { length, .. } => {
                    let due_in_it = |[x, y, d, _]: [u64; 4]| if d <= length { ((length - d) / y + 1) * x } else { 0 };
                    let of_row = |(&row, number): (&[u64; 4], u64)| vec![[0, number, row[3]]; due_in_it(row) as usize];
                    let of_server = |(&[a, b], number): (&[u64; 2], u64)| [0, number, a * length / b];
                    let odd_jobs = servers.iter().zip(rows.len() as u64..).map(of_server).filter(|job| job[2] > 0);
                    let records: Vec<[u64; 3]> = rows.iter().zip(0..).flat_map(of_row).chain(odd_jobs).collect();
                    if records.len() <= MOST_PENDING {
                        met[1 + with_servers] += 1;
                        let replayed = play_all(timer, &rows, &servers, &script(&records)).unwrap();
                        assert!(replayed.late > 0, "{timer:?} {rows:?} {servers:?}");
                    }
                }
            }
        }
        assert!(met.iter().all(|&count| count > 200), "{met:?}");
    }

    #[test]
    fn a_timer_that_takes_no_tick_changes_no_log() {
        let rows = [[1, 4, 4, 2], [1, 6, 6, 3]];
        for p in [2, 3, 12, 4_096] {
            assert_eq!(play_with([0, p], &rows, &R1), play(&rows, &R1));
        }
    }

    #[test]
    fn a_job_due_inside_a_taken_stretch() {
        // The ticks from 0 to 2 are taken, and those from 8 to 10. The job is due at 10 and has the ticks from 3 to 7.
        let finish = |cost| {
            let replayed = play_with([3, 8], &[[1, 16, 10, 6]], &[0, 0, cost]).unwrap();
            (replayed.records[0][4], replayed.late)
        };
        assert_eq!(finish(5), (8, 0));
        assert_eq!(finish(6), (12, 1));
        // A job that is released inside the stretch has its first unit after it.
        let later = play_with([3, 8], &[[1, 16, 10, 6]], &[9, 0, 1]).unwrap();
        assert_eq!((&later.records[0][..], later.late), (&[0, 0, 9, 19, 12][..], 0));
        // This one is due when the stretch ends, and has its unit one tick later.
        let late = play_with([3, 8], &[[1, 16, 2, 1]], &[9, 0, 1]).unwrap();
        assert_eq!((&late.records[0][..], late.late), (&[0, 0, 9, 11, 12][..], 1));
    }

    #[test]
    fn finishing_in_the_one_free_tick_of_a_long_p() {
        let row = [[1, 4_096, 4_096, 1]];
        let script = script(&[[0, 0, 1], [4_096, 0, 1], [4_095 + (1 << 32), 0, 1]]);
        let replayed = play_with([4_095, 4_096], &row, &script).unwrap();
        let finish = |record: &[u8]| {
            let numbers = (0..5).scan(0, |place, _| {
                let (number, after) = numbers::read(record, *place).unwrap();
                *place = after;
                Some(number)
            });
            numbers.last().unwrap()
        };
        let finishes: Vec<u64> = replayed.records.iter().map(|record| finish(record)).collect();
        assert_eq!((finishes, replayed.late), (vec![4_096, 8_192, (1 << 32) + 8_192], 0));
    }

    #[test]
    fn refusals_of_a_record_in_order() {
        let v2 = [[1, 2, 6, 1]];
        assert_eq!(play(&[], &[0, 0, 1]), Err((6, 1)));
        assert_eq!(play(&v2, &[0, 0]), Err((14, 2)));
        assert_eq!(play(&v2, &[0, 1]), Err((6, 1)));
        assert_eq!(play(&v2, &[0, 1, 0x80, 0x00]), Err((6, 1)));
        assert_eq!(play(&v2, &[0, 0x80, 0x00]), Err((14, 2)));
        assert_eq!(play(&v2, &[0x80, 0x00, 1]), Err((14, 1)));
        assert_eq!(play(&v2, &[0, 0, 0]), Err((7, 2)));
        assert_eq!(play(&v2, &[0, 0, 2]), Err((7, 2)));
        assert_eq!(play(&v2, &[0, 0, 1, 0, 0, 2]), Err((7, 5)));
        assert_eq!(play(&v2, &script(&[[0, 1 << 32, 1]])), Err((6, 1)));
        assert_eq!(play(&v2, &script(&[[0, 0, 1 << 41]])), Err((7, 2)));
        assert_eq!(play(&v2, &script(&[[LAST_TICK + 1, 0, 1]])), Err((10, 0)));
        assert_eq!(play(&v2, &script(&[[0, 0, 1], [LAST_TICK + 1, 0, 1]])), Err((10, 3)));
        let late_then_cut = &script(&[[1, 0, 1], [LAST_TICK, 0, 1]])[..9];
        assert_eq!(play(&v2, late_then_cut), Err((10, 3)));
    }

    #[test]
    fn a_bad_byte_is_14_at_its_place_and_a_cut_at_the_length() {
        let v2 = [[1, 2, 6, 1]];
        for before in [&[][..], &[0], &[0, 0], &[0, 0, 1]] {
            let start = before.len();
            let spelled = |bad: &[u8]| [before, bad].concat();
            assert_eq!(play(&v2, &spelled(&[0x81, 0x00])), Err((14, start + 1)));
            assert_eq!(play(&v2, &spelled(&[0x81, 0x80, 0x00, 1])), Err((14, start + 2)));
            assert_eq!(play(&v2, &spelled(&[0x80, 0x80, 0x80, 0x80, 0x80, 0x00])), Err((14, start + 5)));
            assert_eq!(play(&v2, &spelled(&[0xff; 6])), Err((14, start + 5)));
            assert_eq!(play(&v2, &spelled(&[0xff; 9])), Err((14, start + 5)));
            assert_eq!(play(&v2, &spelled(&[0x80; 5])), Err((14, start + 5)));
            assert_eq!(play(&v2, &spelled(&[0x80; 3])), Err((14, start + 3)));
        }
    }

    #[test]
    fn script_time_at_the_last_tick_still_fails_for_its_due_time() {
        let v2 = [[1, 2, 6, 1]];
        assert_eq!(play(&v2, &script(&[[LAST_TICK, 0, 1]])), Err((9, 0)));
        assert_eq!(play(&v2, &script(&[[LAST_TICK, 1, 1]])), Err((6, 6)));
        assert_eq!(play(&v2, &script(&[[LAST_TICK, 0, 2]])), Err((7, 7)));
        assert_eq!(play(&v2, &script(&[[LAST_TICK, 0, 1]])[..7]), Err((14, 7)));
        let due_at_the_last_tick = script(&[[LAST_TICK - 6, 0, 1]]);
        assert_eq!(play(&v2, &due_at_the_last_tick).map(|replayed| replayed.late), Ok(0));
        assert_eq!(play(&v2, &script(&[[LAST_TICK - 6, 0, 1], [0, 0, 1]])), Err((9, 8)));
    }

    #[test]
    fn the_pending_job_that_reaches_the_limit_and_one_more() {
        let row = [[MOST_X, 1, 9, 9]];
        let burst = |count| script(&vec![[0, 0, 1]; count]);
        assert!(play(&row, &burst(MOST_PENDING - 1)).is_ok());
        assert!(play(&row, &burst(MOST_PENDING)).is_ok());
        assert_eq!(play(&row, &burst(MOST_PENDING + 1)), Err((8, 3 * MOST_PENDING)));
        let one_finished = [burst(MOST_PENDING), vec![1, 0, 1]].concat();
        assert!(play(&row, &one_finished).is_ok());
        let and_one_more = [&one_finished[..], &[0, 0, 1]].concat();
        assert_eq!(play(&row, &and_one_more), Err((8, one_finished.len())));
    }

    #[test]
    fn no_free_place_beats_a_due_time_too_late() {
        // The jobs that take all places are due at the last tick, and the last row's job would be due one later.
        let rows_in_time = MOST_PENDING as u64 / MOST_X;
        let mut rows = vec![[MOST_X, 1, 8, 1]; rows_in_time as usize];
        rows.push([1, 1, 9, 1]);
        let mut records: Vec<[u64; 3]> = (0..MOST_PENDING as u64).map(|job| [0, job / MOST_X, 1]).collect();
        records[0][0] = LAST_TICK - 8;
        records.push([0, rows_in_time, 1]);
        assert_eq!(play(&rows, &script(&records)), Err((8, 8 + 3 * (MOST_PENDING - 1))));
        records.remove(1);
        assert_eq!(play(&rows, &script(&records)), Err((9, 8 + 3 * (MOST_PENDING - 2))));
    }

    #[test]
    fn the_clock_stops_the_final_ticks() {
        let crowded = [[2, 1, 2, 2]];
        let three_units = script(&[[LAST_TICK - 2, 0, 2], [0, 0, 1]]);
        assert_eq!(play(&crowded, &three_units), Err((10, three_units.len())));
        let two_units = script(&[[LAST_TICK - 2, 0, 1], [0, 0, 1]]);
        assert_eq!(play(&crowded, &two_units).map(|replayed| replayed.late), Ok(0));
        assert_eq!(play(&crowded, &script(&[[LAST_TICK - 2, 0, 2]])).map(|replayed| replayed.late), Ok(0));
    }

    #[test]
    fn the_clock_stops_the_final_ticks_whether_they_are_taken_or_not() {
        // 2^40 is one more than a multiple of three. With s = 1 the last tick of all is taken, and with s = 2 the tick
        // at 2^40 would be taken too.
        let row = [[2, 1, 2, 2]];
        let at_the_end = |timer, from_the_end, cost| {
            let script = script(&[[LAST_TICK - from_the_end, 0, cost]]);
            play_with(timer, &row, &script).map(|replayed| replayed.late)
        };
        assert_eq!(at_the_end([1, 3], 3, 2), Ok(0));
        assert_eq!(at_the_end([1, 3], 2, 1), Ok(0));
        assert_eq!(at_the_end([1, 3], 2, 2), Err((10, 8)));
        assert_eq!(at_the_end([2, 3], 2, 1), Ok(0));
        assert_eq!(at_the_end([2, 3], 2, 2), Err((10, 8)));
        assert_eq!(at_the_end([1, 2], 2, 1), Ok(0));
        assert_eq!(at_the_end([1, 2], 2, 2), Err((10, 8)));
        // The one free tick before 2^40 is the last one. With p = 4095 the ticks from 2^40 - 16 on are all taken.
        assert_eq!(at_the_end([4_095, 4_096], 2, 1), Ok(0));
        assert_eq!(at_the_end([16, 4_095], 2, 1), Err((10, 8)));
        assert_eq!(at_the_end([14, 4_095], 2, 2), Ok(0));
        let none_is_free = script(&[[LAST_TICK - 1, 0, 1]]);
        assert_eq!(play_with([1, 3], &[[1, 1, 1, 1]], &none_is_free), Err((10, none_is_free.len())));
        // An idle end is crossed, and its taken ticks with it.
        assert_eq!(play_with([1, 3], &row, &script(&[[LAST_TICK, 0, 1]])), Err((9, 0)));
    }
}
