//! The questions that the library and the peer are both asked.

/// A month is named by calendar, year, month and leap. The last number is the
/// length of what is lent to be written.
#[derive(Debug)]
pub enum Question {
    /// A month's name, and the day in it.
    Day([u64; 5]),
    /// Calendar and day.
    Date([u64; 2]),
    /// Calendar and year.
    Year([u64; 2], usize),
    Eclipse([u64; 4], usize),
    Hours([u64; 4], usize),
    Moons([u64; 4], usize),
    /// Calendar and year.
    WriteRecord([u64; 2], usize),
    ReadRecord(Vec<u8>, usize),
}

pub const YEAR: usize = 55;
pub const ECLIPSE: usize = 8;
pub const HOURS: usize = 12;
pub const MOONS: usize = 2;
pub const RECORD: usize = 25;
pub const RECORD_READ: usize = 5;
