//! The memory of a live run: all that a run holds, as numbers of eight bytes each, lowest byte first. Any bytes are some
//! run, sound or not.

use crate::sound::Held;

/// The memory of a run has this many numbers.
pub const WORDS: usize = 5_984;
pub const BYTES: usize = 8 * WORDS;

/// Reads what the run holds, whether it is sound or not.
pub fn read(bytes: &[u8]) -> Held {
    assert_eq!(bytes.len(), BYTES);
    let mut words = bytes.chunks_exact(8).map(|word| u64::from_le_bytes(word.try_into().unwrap()));
    let mut held = Held::zeros();
    in_order(&mut held, |number| *number = words.next().unwrap());
    held
}

pub fn write(mut held: Held) -> Vec<u8> {
    let mut bytes = Vec::with_capacity(BYTES);
    in_order(&mut held, |number| bytes.extend_from_slice(&number.to_le_bytes()));
    assert_eq!(bytes.len(), BYTES);
    bytes
}

/// Goes through all numbers in the order in which they stand in the memory.
fn in_order(held: &mut Held, mut visit: impl FnMut(&mut u64)) {
    visit(&mut held.timer.s);
    visit(&mut held.timer.p);
    for row in &mut held.rows {
        visit(&mut row.x);
        visit(&mut row.y);
        visit(&mut row.d);
        visit(&mut row.c);
    }
    visit(&mut held.row_count);
    for server in &mut held.servers {
        visit(&mut server.a);
        visit(&mut server.b);
    }
    visit(&mut held.server_count);
    visit(&mut held.clock);
    for job in &mut held.pending {
        visit(&mut job.serial);
        visit(&mut job.row);
        visit(&mut job.release);
        visit(&mut job.due);
        visit(&mut job.cost);
        visit(&mut job.left);
    }
    visit(&mut held.pending_count);
    visit(&mut held.next_serial);
    for kept in &mut held.kept {
        kept.dues.iter_mut().for_each(&mut visit);
        visit(&mut kept.count);
    }
    held.last.iter_mut().for_each(&mut visit);
    visit(&mut held.ended);
}

#[cfg(test)]
mod tests {
    use super::*;
    use crate::run::Run;
    use crate::table::tests::spell_all;

    fn word(bytes: &[u8], index: usize) -> u64 {
        u64::from_le_bytes(bytes[8 * index..][..8].try_into().unwrap())
    }

    #[test]
    fn any_memory_is_read_and_written_back_as_it_was() {
        let count_up: Vec<u8> = (0..WORDS as u64).flat_map(|word| (word << 40 | word).to_le_bytes()).collect();
        for bytes in [vec![0; BYTES], vec![0xff; BYTES], count_up] {
            assert!(write(read(&bytes)) == bytes);
        }
    }

    #[test]
    fn each_number_stands_at_its_place() {
        let bytes: Vec<u8> = (0..WORDS as u64).flat_map(u64::to_le_bytes).collect();
        let held = read(&bytes);
        assert_eq!((held.timer.s, held.timer.p), (0, 1));
        assert_eq!((held.rows[0].x, held.rows[1].x, held.rows[63].c, held.row_count), (2, 6, 257, 258));
        assert_eq!((held.servers[0].a, held.servers[7].b, held.server_count, held.clock), (259, 274, 275, 276));
        let job = &held.pending[0];
        assert_eq!([job.serial, job.row, job.release, job.due, job.cost, job.left], [277, 278, 279, 280, 281, 282]);
        assert_eq!((held.pending[255].left, held.pending_count, held.next_serial), (1_812, 1_813, 1_814));
        assert_eq!((held.kept[0].dues[0], held.kept[0].dues[63], held.kept[0].count), (1_815, 1_878, 1_879));
        assert_eq!((held.kept[1].dues[0], held.kept[63].count), (1_880, 5_974));
        assert_eq!((held.last[0], held.last[7], held.ended), (5_975, 5_982, 5_983));
    }

    #[test]
    fn the_fresh_run_of_the_empty_table_is_zeros_but_for_p() {
        let bytes = write(Run::start(&[]).0.held());
        assert_eq!(bytes[8], 1);
        assert_eq!(bytes.iter().filter(|&&byte| byte != 0).count(), 1);
    }

    #[test]
    fn kept_due_times_stand_oldest_first() {
        let (mut run, _) = Run::start(&spell_all([0, 1], &[[1, 1, 1, 1], [2, 5, 9, 1]], &[[1, 4]]));
        for due in [9, 9, 14, 14, 19] {
            assert_eq!(run.release(1, 1).unwrap().due, due);
        }
        let bytes = write(run.held());
        assert_eq!([word(&bytes, 1_880), word(&bytes, 1_881), word(&bytes, 1_882)], [14, 19, 0]);
        assert_eq!((word(&bytes, 1_879), word(&bytes, 1_944), word(&bytes, 5_975)), (0, 2, 0));
    }
}
