//! The proved library of the Senmyo and Genka calendars, for a Rust program.
//!
//! Put this file beside the program's own and name it there, `mod sieveflicker;`,
//! or name it where it lies with `#[path = ".."]`. `bindings/archive` makes the
//! library; compile with `-L native=` and the folder that has it as
//! `libsieveflicker.a`.

// A program that asks only some of the questions leaves the rest of the file unused.
#![allow(dead_code)]

use std::error::Error;
use std::fmt;

/// Senmyo has the years 822 to 1684, Genka the years 445 to 697.
#[derive(Clone, Copy, Debug, PartialEq, Eq)]
pub enum Calendar {
    Senmyo = 1,
    Genka = 2,
}

impl Calendar {
    fn number(self) -> u64 {
        self as u64
    }
}

#[derive(Clone, Copy, Debug, PartialEq, Eq)]
pub struct Date {
    pub year: u32,
    pub month: u32,
    pub leap: bool,
    pub day: u32,
}

#[derive(Clone, Debug, PartialEq, Eq)]
pub struct Year {
    pub days: u32,
    pub leap_month: Option<u32>,
    /// In order: twelve, or thirteen with a leap month.
    pub months: Vec<Month>,
}

#[derive(Clone, Copy, Debug, PartialEq, Eq)]
pub struct Month {
    pub number: u32,
    pub leap: bool,
    pub length: u32,
    pub first_day: u32,
}

/// The full moon of a month, and how far it is eclipsed.
#[derive(Clone, Copy, Debug, PartialEq, Eq)]
pub struct Eclipse {
    pub day: u32,
    /// Of the day's 8,400.
    pub fen: u32,
    pub side: Side,
    /// From the node, in fen.
    pub distance: u32,
    pub grade: Grade,
}

#[derive(Clone, Copy, Debug, PartialEq, Eq)]
pub enum Side {
    Yang,
    Yin,
}

#[derive(Clone, Copy, Debug, PartialEq, Eq)]
pub enum Grade {
    None,
    /// All of the fifteen parts.
    Total,
    Partial {
        parts: u32,
        remainder: u32,
        strong: bool,
    },
}

/// How long a month's eclipse lasts, and when.
#[derive(Clone, Copy, Debug, PartialEq, Eq)]
pub struct Hours {
    pub length: Length,
    pub start: Time,
    pub middle: Time,
    pub end: Time,
}

#[derive(Clone, Copy, Debug, PartialEq, Eq)]
pub struct Length {
    pub fen: u32,
    /// Of 84 fen each.
    pub whole_ke: u32,
    pub fen_over: u32,
}

#[derive(Clone, Copy, Debug, PartialEq, Eq)]
pub struct Time {
    pub day: u32,
    /// Of the day's 8,400.
    pub fen: u32,
    /// Of the day's hundred.
    pub ke: u32,
}

/// A month's new and full moon, as Julian dates.
#[derive(Clone, Copy, Debug, PartialEq)]
pub struct Moons {
    pub new: f64,
    pub full: f64,
}

#[derive(Clone, Copy, Debug, PartialEq, Eq)]
pub struct Record {
    pub calendar: Calendar,
    pub year: u32,
    pub first_day: u32,
    pub leap_month: Option<u32>,
    /// A bit for each month, the lowest for the first: 1 where the month is long.
    pub long_months: u32,
}

/// Why there is no answer.
#[derive(Clone, Copy, Debug, PartialEq, Eq)]
pub enum Refusal {
    NoSuchCalendar = 1,
    YearNotCovered = 2,
    NoSuchMonth = 3,
    NoSuchDay = 4,
    DayNotCovered = 5,
    WrongSize = 6,
    WrongTagOrLength = 7,
    WrongField = 8,
    EclipseOfGenka = 13,
    NoEclipse = 14,
}

impl Refusal {
    const ALL: [Refusal; 10] = [
        Refusal::NoSuchCalendar,
        Refusal::YearNotCovered,
        Refusal::NoSuchMonth,
        Refusal::NoSuchDay,
        Refusal::DayNotCovered,
        Refusal::WrongSize,
        Refusal::WrongTagOrLength,
        Refusal::WrongField,
        Refusal::EclipseOfGenka,
        Refusal::NoEclipse,
    ];

    pub fn number(self) -> u8 {
        self as u8
    }

    fn numbered(number: u8) -> Refusal {
        Refusal::ALL
            .into_iter()
            .find(|refusal| refusal.number() == number)
            .unwrap_or_else(|| panic!("the library has no refusal {number}"))
    }

    fn words(self) -> &'static str {
        match self {
            Refusal::NoSuchCalendar => "there is no such calendar",
            Refusal::YearNotCovered => "the calendar does not cover the year",
            Refusal::NoSuchMonth => "the year has no such month",
            Refusal::NoSuchDay => "the month has no such day",
            Refusal::DayNotCovered => "the calendar does not cover the day",
            Refusal::WrongSize => "a record has 25 bytes",
            Refusal::WrongTagOrLength => "a tag or a length in the record is wrong",
            Refusal::WrongField => "a field of the record is not what its year has",
            Refusal::EclipseOfGenka => "eclipses are worked out for Senmyo only",
            Refusal::NoEclipse => "the month has no eclipse",
        }
    }
}

impl fmt::Display for Refusal {
    fn fmt(&self, formatter: &mut fmt::Formatter) -> fmt::Result {
        write!(formatter, "refusal {}: {}", self.number(), self.words())
    }
}

impl Error for Refusal {}

/// The Julian Day Number of a date.
pub fn day(calendar: Calendar, date: Date) -> Result<u32, Refusal> {
    let answer = raw::day(
        calendar.number(),
        date.year.into(),
        date.month.into(),
        date.leap.into(),
        date.day.into(),
    );
    answered(answer)
}

/// The date of a Julian Day Number.
pub fn date(calendar: Calendar, day: u32) -> Result<Date, Refusal> {
    let number = answered(raw::date(calendar.number(), day.into()))?;
    Ok(Date {
        year: number / 10_000 % 10_000,
        month: number / 100 % 100,
        leap: number >= 100_000_000,
        day: number % 100,
    })
}

pub fn year(calendar: Calendar, year: u32) -> Result<Year, Refusal> {
    let mut numbers = [0; raw::YEAR_NUMBERS];
    written(raw::year(calendar.number(), year.into(), &mut numbers))?;
    let [days, leap_number, count, places @ ..] = numbers;
    Ok(Year {
        days,
        leap_month: month_if_any(leap_number),
        months: places
            .chunks_exact(4)
            .take(count as usize)
            .map(month)
            .collect(),
    })
}

fn month(numbers: &[u32]) -> Month {
    Month {
        number: numbers[0],
        leap: numbers[1] == 1,
        length: numbers[2],
        first_day: numbers[3],
    }
}

fn month_if_any(number: u32) -> Option<u32> {
    (number != 0).then_some(number)
}

pub fn eclipse(calendar: Calendar, year: u32, month: u32, leap: bool) -> Result<Eclipse, Refusal> {
    let mut numbers = [0; raw::ECLIPSE_NUMBERS];
    written(raw::eclipse(
        calendar.number(),
        year.into(),
        month.into(),
        leap.into(),
        &mut numbers,
    ))?;
    let [day, fen, side, distance, kind, parts, remainder, strong] = numbers;
    Ok(Eclipse {
        day,
        fen,
        side: if side == 0 { Side::Yang } else { Side::Yin },
        distance,
        grade: match kind {
            0 => Grade::None,
            1 => Grade::Total,
            _ => Grade::Partial {
                parts,
                remainder,
                strong: strong == 1,
            },
        },
    })
}

pub fn hours(calendar: Calendar, year: u32, month: u32, leap: bool) -> Result<Hours, Refusal> {
    let mut numbers = [0; raw::HOURS_NUMBERS];
    written(raw::hours(
        calendar.number(),
        year.into(),
        month.into(),
        leap.into(),
        &mut numbers,
    ))?;
    let [fen, whole_ke, fen_over, times @ ..] = numbers;
    Ok(Hours {
        length: Length {
            fen,
            whole_ke,
            fen_over,
        },
        start: time(&times[..3]),
        middle: time(&times[3..6]),
        end: time(&times[6..]),
    })
}

fn time(numbers: &[u32]) -> Time {
    Time {
        day: numbers[0],
        fen: numbers[1],
        ke: numbers[2],
    }
}

pub fn moons(calendar: Calendar, year: u32, month: u32, leap: bool) -> Result<Moons, Refusal> {
    let mut dates = [0.0; raw::MOONS_NUMBERS];
    written(raw::moons(
        calendar.number(),
        year.into(),
        month.into(),
        leap.into(),
        &mut dates,
    ))?;
    let [new, full] = dates;
    Ok(Moons { new, full })
}

pub fn write_record(calendar: Calendar, year: u32) -> Result<[u8; raw::RECORD_BYTES], Refusal> {
    let mut record = [0; raw::RECORD_BYTES];
    written(raw::write_record(
        calendar.number(),
        year.into(),
        &mut record,
    ))?;
    Ok(record)
}

pub fn read_record(bytes: &[u8]) -> Result<Record, Refusal> {
    let mut numbers = [0; raw::RECORD_NUMBERS];
    written(raw::read_record(bytes, &mut numbers))?;
    let [calendar, year, first_day, leap_number, long_months] = numbers;
    Ok(Record {
        calendar: if calendar == 1 {
            Calendar::Senmyo
        } else {
            Calendar::Genka
        },
        year,
        first_day,
        leap_month: month_if_any(leap_number),
        long_months,
    })
}

/// Days and dates are far above the numbers of refusals.
fn answered(answer: u64) -> Result<u32, Refusal> {
    match answer {
        0..=99 => Err(Refusal::numbered(answer as u8)),
        _ => Ok(answer as u32),
    }
}

fn written(answer: u8) -> Result<(), Refusal> {
    match answer {
        0 => Ok(()),
        number => Err(Refusal::numbered(number)),
    }
}

/// The library's own calls, number for number, as `sieveflicker.h` tells of them.
///
/// Each `unsafe` here is sound for the same reasons. No call of the library has
/// a requirement: it answers or refuses whatever numbers it is given. A pointer
/// and its length are a slice's own, good for the whole call, which keeps
/// neither. Of two slices no place is in both, for one is borrowed to be
/// written.
pub mod raw {
    pub const YEAR_NUMBERS: usize = 55;
    pub const ECLIPSE_NUMBERS: usize = 8;
    pub const HOURS_NUMBERS: usize = 12;
    pub const MOONS_NUMBERS: usize = 2;
    pub const RECORD_NUMBERS: usize = 5;
    pub const RECORD_BYTES: usize = 25;

    #[link(name = "sieveflicker", kind = "static")]
    unsafe extern "C" {
        fn sf_day(calendar: u64, year: u64, month: u64, leap: u64, day: u64) -> u64;
        fn sf_date(calendar: u64, day: u64) -> u64;
        fn sf_year(calendar: u64, year: u64, out: *mut u32, length: usize) -> u8;
        fn sf_eclipse(
            calendar: u64,
            year: u64,
            month: u64,
            leap: u64,
            out: *mut u32,
            length: usize,
        ) -> u8;
        fn sf_hours(
            calendar: u64,
            year: u64,
            month: u64,
            leap: u64,
            out: *mut u32,
            length: usize,
        ) -> u8;
        fn sf_moons(
            calendar: u64,
            year: u64,
            month: u64,
            leap: u64,
            out: *mut f64,
            length: usize,
        ) -> u8;
        fn sf_write_record(calendar: u64, year: u64, buffer: *mut u8, length: usize) -> u8;
        fn sf_read_record(
            bytes: *const u8,
            bytes_length: usize,
            out: *mut u32,
            out_length: usize,
        ) -> u8;
    }

    pub fn day(calendar: u64, year: u64, month: u64, leap: u64, day: u64) -> u64 {
        // SAFETY: numbers alone, and any numbers will do.
        unsafe { sf_day(calendar, year, month, leap, day) }
    }

    pub fn date(calendar: u64, day: u64) -> u64 {
        // SAFETY: numbers alone, and any numbers will do.
        unsafe { sf_date(calendar, day) }
    }

    pub fn year(calendar: u64, year: u64, out: &mut [u32]) -> u8 {
        // SAFETY: `out` is ours to write for the whole call.
        unsafe { sf_year(calendar, year, out.as_mut_ptr(), out.len()) }
    }

    pub fn eclipse(calendar: u64, year: u64, month: u64, leap: u64, out: &mut [u32]) -> u8 {
        // SAFETY: `out` is ours to write for the whole call.
        unsafe { sf_eclipse(calendar, year, month, leap, out.as_mut_ptr(), out.len()) }
    }

    pub fn hours(calendar: u64, year: u64, month: u64, leap: u64, out: &mut [u32]) -> u8 {
        // SAFETY: `out` is ours to write for the whole call.
        unsafe { sf_hours(calendar, year, month, leap, out.as_mut_ptr(), out.len()) }
    }

    pub fn moons(calendar: u64, year: u64, month: u64, leap: u64, out: &mut [f64]) -> u8 {
        // SAFETY: `out` is ours to write for the whole call.
        unsafe { sf_moons(calendar, year, month, leap, out.as_mut_ptr(), out.len()) }
    }

    pub fn write_record(calendar: u64, year: u64, buffer: &mut [u8]) -> u8 {
        // SAFETY: `buffer` is ours to write for the whole call.
        unsafe { sf_write_record(calendar, year, buffer.as_mut_ptr(), buffer.len()) }
    }

    pub fn read_record(bytes: &[u8], out: &mut [u32]) -> u8 {
        // SAFETY: for the whole call `bytes` is ours to read, and `out`, which
        // shares no place with it, ours to write.
        unsafe { sf_read_record(bytes.as_ptr(), bytes.len(), out.as_mut_ptr(), out.len()) }
    }
}
