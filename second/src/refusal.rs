//! The refusals: each has a number, and a place in the bytes.

/// The reasons of the refusals, by their numbers.
#[derive(Clone, Copy, Debug, PartialEq, Eq)]
#[repr(u32)]
pub enum Reason {
    /// A number of a table, or one for the number reader, is misspelled, too long or cut off.
    Misspelled = 1,
    /// The row count is above the limit of rows, or the server count above the limit of servers.
    TooManyRows = 2,
    /// A p, x, y, d, c, a or b is out of its range, b is below a, or s is not below p.
    ValueOutOfRange = 3,
    /// There are bytes after the last server.
    ExtraBytes = 4,
    /// H is above 1,048,576.
    PeriodTooLong = 5,
    /// The row number is not in use.
    NoSuchRow = 6,
    /// The cost is 0 or above the row's c, for a server above 4,096.
    CostOutOfRange = 7,
    /// The limit of pending jobs is reached at a release.
    PlacesFull = 8,
    /// The due time would be above 2^40.
    DueTooLate = 9,
    /// A script time or a time reached is above 2^40, or the clock is at 2^40 at a tick.
    TimeTooLate = 10,
    /// The run that a call is made on is not sound.
    RunNotSound = 11,
    /// A number or the log is longer than its buffer.
    NoRoom = 12,
    /// The answer buffer is not 16 bytes long.
    AnswerNot16Bytes = 13,
    /// A number of a script is misspelled, too long or cut off.
    ScriptMisspelled = 14,
    /// A row's c is above its d, so no job of full cost could ever be in time.
    HopelessRow = 16,
    /// No pending job has the serial of a job that is to be ended.
    NotPending = 17,
    /// As many jobs were ended early as may be.
    TooManyEnded = 18,
    /// A number to write is above 2^42 - 1.
    NumberTooBig = 25,
}

impl Reason {
    pub fn at(self, place: usize) -> Refusal {
        Refusal { reason: self, place }
    }

    pub fn number(self) -> u32 {
        self as u32
    }
}

#[derive(Clone, Copy, Debug, PartialEq, Eq)]
pub struct Refusal {
    pub reason: Reason,
    pub place: usize,
}
