//! Due times.

use crate::table::{Named, Row, Server};

/// Returns the due time of the next job of a row or of a server, which is released at `release`. The due times of all
/// its accepted jobs are `earlier`. Only an odd job's due time depends on its cost.
pub fn due(named: &Named, earlier: &[u64], release: u64, cost: u64) -> u64 {
    match named {
        Named::Row(row) => of_row(row, earlier, release),
        Named::Server(server) => of_server(server, earlier, release, cost),
    }
}

/// A row's job is due at least y ticks after the job that came x jobs before it.
fn of_row(row: &Row, earlier: &[u64], release: u64) -> u64 {
    let by_release = release + row.d;
    match earlier.len().checked_sub(row.x as usize) {
        None => by_release,
        Some(job) => by_release.max(earlier[job] + row.y),
    }
}

/// An odd job starts at the server's last due time, or at its release where that is later. It is due when the server's
/// share would have given it its cost.
fn of_server(server: &Server, earlier: &[u64], release: u64, cost: u64) -> u64 {
    let last = earlier.last().copied().unwrap_or(0);
    release.max(last) + (cost * server.b).div_ceil(server.a)
}

#[cfg(test)]
mod tests {
    use super::*;

    fn dues(x: u64, y: u64, d: u64, releases: &[u64]) -> Vec<u64> {
        let row = Row { x, y, d, c: 1 };
        let mut dues = vec![];
        for &release in releases {
            dues.push(due(&Named::Row(row), &dues, release, 1));
        }
        dues
    }

    #[test]
    fn examples_d1_to_d3() {
        assert_eq!(dues(1, 2, 6, &[0, 0, 0, 3, 3, 6]), [6, 8, 10, 12, 14, 16]);
        assert_eq!(dues(3, 6, 6, &[0, 0, 0, 3, 3, 6]), [6, 6, 6, 12, 12, 12]);
        assert_eq!(dues(1, 2, 6, &[0, 20]), [6, 26]);
    }

    /// Returns the due times of a server's jobs, each of which is a release and a cost.
    fn odd_dues(a: u64, b: u64, jobs: &[[u64; 2]]) -> Vec<u64> {
        let mut dues = vec![];
        for &[release, cost] in jobs {
            dues.push(due(&Named::Server(Server { a, b }), &dues, release, cost));
        }
        dues
    }

    #[test]
    fn example_s1() {
        assert_eq!(odd_dues(1, 4, &[[30, 10], [69, 20], [140, 20]]), [70, 150, 230]);
    }

    #[test]
    fn the_share_of_a_cost_is_rounded_up() {
        for (a, b, cost, due) in [
            (1, 1, 1, 1),
            (2, 3, 1, 2),
            (2, 3, 2, 3),
            (2, 3, 3, 5),
            (3, 4, 1, 2),
            (3, 4, 3, 4),
            (4_095, 4_096, 1, 2),
            (4_096, 4_096, 4_096, 4_096),
            (4_095, 4_096, 4_095, 4_096),
            (4_095, 4_096, 4_096, 4_098),
            (1, 4_096, 1, 4_096),
            (1, 4_096, 4_096, 1 << 24),
        ] {
            assert_eq!(odd_dues(a, b, &[[0, cost]]), [due], "{a} of {b}, {cost}");
            assert_eq!(odd_dues(a, b, &[[9, cost]]), [9 + due], "{a} of {b}, {cost}");
            // This is the first whole number of ticks in which the share is as much as the cost.
            assert!(due * a >= cost * b && (due - 1) * a < cost * b);
        }
    }

    #[test]
    fn an_odd_job_after_the_last_due_time_is_due_as_the_first_would_be() {
        assert_eq!(odd_dues(1, 4, &[[0, 1], [3, 1], [8, 1], [9, 1], [100, 3]]), [4, 8, 12, 16, 112]);
        assert_eq!(odd_dues(2, 3, &[[0, 1], [0, 1], [0, 1]]), [2, 4, 6]);
    }

    #[test]
    fn odd_jobs_released_and_due_inside_a_window_cost_no_more_than_the_demand() {
        let mut state: u64 = 1;
        let mut below = |bound: u64| {
            state = state.wrapping_mul(0x5851_f42d_4c95_7f2d).wrapping_add(1);
            (state >> 33) % bound
        };
        for _ in 0..2_000 {
            let b = 1 + below(9);
            let server = Server { a: 1 + below(b), b };
            let mut release = 0;
            let mut job = |_| {
                release += below(4) * below(3);
                [release, 1 + below(5)]
            };
            let jobs: Vec<[u64; 2]> = (0..10).map(&mut job).collect();
            let dues = odd_dues(server.a, server.b, &jobs);
            for start in 0..=release {
                for &end in dues.iter().filter(|&&due| due > start) {
                    let inside = jobs.iter().zip(&dues).filter(|(job, &due)| job[0] >= start && due <= end);
                    let cost: u64 = inside.map(|(job, _)| job[1]).sum();
                    assert!(cost <= server.demand(end - start), "{server:?} {jobs:?} from {start} to {end}");
                }
            }
        }
    }
}
