//! The numbers in the memory of a run, each with its name, and what they can be changed to.

use super::random::Random;
use second::run::{LAST_TICK, MOST_ENDED, MOST_PENDING};
use second::sound::Held;
use second::table::{MOST_A, MOST_B, MOST_C, MOST_D, MOST_ODD_COST, MOST_P, MOST_ROWS, MOST_SERVERS, MOST_X, MOST_Y};
use std::sync::LazyLock;

#[derive(Clone, Copy, Debug, PartialEq, Eq, PartialOrd, Ord)]
pub enum Field {
    S,
    P,
    X,
    Y,
    D,
    C,
    RowCount,
    A,
    B,
    ServerCount,
    Clock,
    Serial,
    RowNumber,
    Release,
    Due,
    Cost,
    Left,
    PendingCount,
    NextSerial,
    KeptDue,
    KeptCount,
    Last,
    Ended,
}

/// A number in the memory.
#[derive(Clone, Copy, Debug)]
pub struct Word {
    pub field: Field,
    /// It is of this row, server or place, or 0 where it is of none.
    pub of: usize,
    /// A kept due time stands at this place.
    pub at: usize,
}

pub const FIELDS: [Field; 23] = [
    Field::S,
    Field::P,
    Field::X,
    Field::Y,
    Field::D,
    Field::C,
    Field::RowCount,
    Field::A,
    Field::B,
    Field::ServerCount,
    Field::Clock,
    Field::Serial,
    Field::RowNumber,
    Field::Release,
    Field::Due,
    Field::Cost,
    Field::Left,
    Field::PendingCount,
    Field::NextSerial,
    Field::KeptDue,
    Field::KeptCount,
    Field::Last,
    Field::Ended,
];

impl Field {
    /// Says whether there is one of these for each row, server or place, so that some may not be in use.
    pub fn is_of_many(self) -> bool {
        !matches!(
            self,
            Field::S
                | Field::P
                | Field::RowCount
                | Field::ServerCount
                | Field::Clock
                | Field::PendingCount
                | Field::NextSerial
                | Field::Ended
        )
    }

    /// Returns a limit that does not depend on the rest of the run, where there is one. One more is never sound in use.
    pub fn limit(self) -> Option<u64> {
        match self {
            Field::P => Some(MOST_P),
            Field::X => Some(MOST_X),
            Field::Y => Some(MOST_Y),
            Field::D => Some(MOST_D),
            Field::C => Some(MOST_C),
            Field::RowCount => Some(MOST_ROWS),
            Field::A => Some(MOST_A),
            Field::B => Some(MOST_B),
            Field::ServerCount => Some(MOST_SERVERS),
            Field::Clock | Field::Due | Field::KeptDue | Field::Last => Some(LAST_TICK),
            Field::Cost => Some(MOST_ODD_COST),
            Field::PendingCount => Some(MOST_PENDING as u64),
            Field::KeptCount => Some(MOST_X),
            Field::Ended => Some(MOST_ENDED),
            Field::S | Field::Serial | Field::RowNumber | Field::Release | Field::Left | Field::NextSerial => None,
        }
    }
}

/// All numbers in the order in which they stand in the memory.
pub static ALL: LazyLock<Vec<Word>> = LazyLock::new(in_order);

fn in_order() -> Vec<Word> {
    let mut all = vec![];
    let mut push = |of: usize, fields: &[Field]| all.extend(fields.iter().map(|&field| Word { field, of, at: 0 }));
    push(0, &[Field::S, Field::P]);
    (0..64).for_each(|row| push(row, &[Field::X, Field::Y, Field::D, Field::C]));
    push(0, &[Field::RowCount]);
    (0..8).for_each(|server| push(server, &[Field::A, Field::B]));
    push(0, &[Field::ServerCount, Field::Clock]);
    let of_job = [Field::Serial, Field::RowNumber, Field::Release, Field::Due, Field::Cost, Field::Left];
    (0..256).for_each(|place| push(place, &of_job));
    push(0, &[Field::PendingCount, Field::NextSerial]);
    for row in 0..64 {
        all.extend((0..64).map(|at| Word { field: Field::KeptDue, of: row, at }));
        all.push(Word { field: Field::KeptCount, of: row, at: 0 });
    }
    all.extend((0..8).map(|server| Word { field: Field::Last, of: server, at: 0 }));
    all.push(Word { field: Field::Ended, of: 0, at: 0 });
    all
}

/// Picks a field, and returns the place in the memory of one of its numbers.
pub fn any(random: &mut Random) -> usize {
    let field = random.pick(&FIELDS);
    let places: Vec<usize> = (0..ALL.len()).filter(|&place| ALL[place].field == field).collect();
    // The first of each are in use more often than the others.
    let few = random.pick(&[2, 8, places.len()]).min(places.len());
    places[random.index(few)]
}

impl Word {
    /// Says whether the number is in use in a run whose counts are within their limits.
    pub fn is_in_use(self, held: &Held) -> bool {
        let of = self.of as u64;
        match self.field {
            Field::X | Field::Y | Field::D | Field::C | Field::KeptCount => of < held.row_count,
            Field::KeptDue => of < held.row_count && (self.at as u64) < held.kept[self.of].count,
            Field::A | Field::B | Field::Last => of < held.server_count,
            Field::Serial | Field::RowNumber | Field::Release | Field::Due | Field::Cost | Field::Left => {
                of < held.pending_count
            }
            _ => true,
        }
    }

    /// Returns what the number can be changed to, from what it is now: zero, one more, the largest, any number, and those
    /// on both sides of each rule that it is in.
    pub fn other_values(self, held: &Held, now: u64, random: &mut Random) -> Vec<u64> {
        let Word { field, of, .. } = self;
        let row = held.rows.get(of);
        let job = held.pending.get(of);
        let limit = field.limit().map_or(vec![], |limit| vec![limit, limit + 1]);
        let numbers_in_use = held.row_count.wrapping_add(held.server_count);
        let by_rules = match field {
            Field::S => vec![held.timer.p.wrapping_sub(1), held.timer.p],
            Field::P => vec![held.timer.s, held.timer.s.wrapping_add(1)],
            Field::X => vec![held.kept[of].count, held.kept[of].count.wrapping_sub(1)],
            Field::D => row.map_or(vec![], |row| vec![row.c, row.c.wrapping_sub(1)]),
            Field::C => row.map_or(vec![], |row| vec![row.d, row.d.wrapping_add(1), now.wrapping_sub(1)]),
            Field::A => vec![held.servers[of].b, held.servers[of].b.wrapping_add(1)],
            Field::B => vec![held.servers[of].a, held.servers[of].a.wrapping_sub(1)],
            Field::RowCount | Field::ServerCount | Field::PendingCount | Field::KeptCount => {
                let x = row.map_or(0, |row| row.x);
                vec![now.wrapping_sub(1), now / 2, x, x.wrapping_add(1)]
            }
            Field::Clock => {
                let newest = held.pending.iter().map(|job| job.release).max().unwrap();
                vec![newest, newest.wrapping_sub(1), LAST_TICK - random.below(20)]
            }
            Field::Serial => {
                let another = held.pending[random.index(held.pending_count.clamp(1, 256) as usize)].serial;
                vec![held.next_serial, held.next_serial.wrapping_sub(1), another]
            }
            Field::RowNumber => vec![numbers_in_use, numbers_in_use.wrapping_sub(1), held.row_count],
            Field::Release => vec![held.clock, held.clock.wrapping_add(1)],
            Field::Due => vec![held.clock, held.clock.wrapping_add(1)],
            Field::Cost => job.map_or(vec![], |job| {
                let c = held.rows.get(job.row as usize).map_or(MOST_ODD_COST, |row| row.c);
                vec![job.left, job.left.wrapping_sub(1), c, c.wrapping_add(1)]
            }),
            Field::Left => job.map_or(vec![], |job| vec![1, job.cost, job.cost.wrapping_add(1)]),
            Field::NextSerial => {
                let most = held.clock.wrapping_add(held.pending_count).wrapping_add(held.ended);
                let highest = held.pending.iter().map(|job| job.serial).max().unwrap();
                vec![most, most.wrapping_add(1), highest, highest.wrapping_add(1)]
            }
            Field::Y | Field::KeptDue | Field::Last | Field::Ended => vec![],
        };
        let shifted = random.next() >> random.below(64);
        // Cut to 32 bits, one of these would be what stands there now.
        let any = random.pick(&[shifted, shifted, now.wrapping_add(1 << 32), now.wrapping_sub(1)]);
        let of_any = vec![0, now.wrapping_add(1), u64::MAX, any];
        let values: Vec<u64> = [of_any, limit, by_rules].concat();
        values.into_iter().filter(|&value| value != now).collect()
    }
}
