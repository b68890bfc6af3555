//! The sides that are compared. Each answers as the library does, and every
//! question has an answer: what a side refused would count as zeros, or, where
//! the library is asked for a day or a date, as the small number of its refusal.

use crate::array::Array;
use crate::questions::{Date, Day, MonthName, Year};
use crate::runs::Runs;
use crate::sieveflicker::raw::{
    self, ECLIPSE_NUMBERS, HOURS_NUMBERS, MOONS_NUMBERS, RECORD_BYTES, RECORD_NUMBERS, YEAR_NUMBERS,
};
use peer::{dates, eclipse, hours, instants, months, record};

pub trait Side: Runs {
    /// As year * 10000 + month * 100 + day, and 100000000 more in a leap month.
    fn date(&self, day: Day) -> u64;
    fn day(&self, date: Date) -> u64;
    fn year(&self, year: Year, numbers: &mut [u32; YEAR_NUMBERS]);
    fn write_record(&self, year: Year, bytes: &mut [u8; RECORD_BYTES]);
    fn read_record(&self, bytes: &[u8; RECORD_BYTES], numbers: &mut [u32; RECORD_NUMBERS]);
    fn eclipse(&self, month: MonthName, numbers: &mut [u32; ECLIPSE_NUMBERS]);
    fn hours(&self, month: MonthName, numbers: &mut [u32; HOURS_NUMBERS]);
    /// The new moon and the full moon.
    fn moons(&self, month: MonthName, dates: &mut [f64; MOONS_NUMBERS]);
}

pub struct Sides {
    pub library: Library,
    pub peer: Peer,
    pub array: Array,
}

pub struct Library;

impl Side for Library {
    fn date(&self, day: Day) -> u64 {
        raw::date(day.calendar.into(), day.number.into())
    }

    fn day(&self, date: Date) -> u64 {
        raw::day(
            date.calendar.into(),
            date.year.into(),
            date.month.into(),
            date.leap.into(),
            date.day.into(),
        )
    }

    fn year(&self, year: Year, numbers: &mut [u32; YEAR_NUMBERS]) {
        raw::year(year.calendar.into(), year.number.into(), numbers);
    }

    fn write_record(&self, year: Year, bytes: &mut [u8; RECORD_BYTES]) {
        raw::write_record(year.calendar.into(), year.number.into(), bytes);
    }

    fn read_record(&self, bytes: &[u8; RECORD_BYTES], numbers: &mut [u32; RECORD_NUMBERS]) {
        raw::read_record(bytes, numbers);
    }

    fn eclipse(&self, month: MonthName, numbers: &mut [u32; ECLIPSE_NUMBERS]) {
        raw::eclipse(
            month.calendar.into(),
            month.year.into(),
            month.month.into(),
            month.leap.into(),
            numbers,
        );
    }

    fn hours(&self, month: MonthName, numbers: &mut [u32; HOURS_NUMBERS]) {
        raw::hours(
            month.calendar.into(),
            month.year.into(),
            month.month.into(),
            month.leap.into(),
            numbers,
        );
    }

    fn moons(&self, month: MonthName, dates: &mut [f64; MOONS_NUMBERS]) {
        raw::moons(
            month.calendar.into(),
            month.year.into(),
            month.month.into(),
            month.leap.into(),
            dates,
        );
    }
}

pub struct Peer;

impl Side for Peer {
    fn date(&self, day: Day) -> u64 {
        dates::date_of(day.calendar.into(), day.number.into())
            .map_or(0, |(year, month, leap, day)| {
                date_number(year, month, leap, day)
            })
    }

    fn day(&self, date: Date) -> u64 {
        let asked = (
            date.year.into(),
            date.month.into(),
            date.leap,
            date.day.into(),
        );
        dates::day_of(date.calendar.into(), asked).unwrap_or(0)
    }

    fn year(&self, year: Year, numbers: &mut [u32; YEAR_NUMBERS]) {
        if let Ok(year) = months::year(year.calendar.into(), year.number.into()) {
            put_months(year.months.iter().map(month_numbers), numbers);
        }
    }

    fn write_record(&self, year: Year, bytes: &mut [u8; RECORD_BYTES]) {
        let _ = record::write(year.calendar.into(), year.number.into(), bytes);
    }

    fn read_record(&self, bytes: &[u8; RECORD_BYTES], numbers: &mut [u32; RECORD_NUMBERS]) {
        if let Ok(read) = record::read(bytes) {
            *numbers = read.map(|number| number as u32);
        }
    }

    fn eclipse(&self, month: MonthName, numbers: &mut [u32; ECLIPSE_NUMBERS]) {
        let asked = eclipse::asked(
            month.calendar.into(),
            month.year.into(),
            month.month.into(),
            month.leap,
        );
        if let Ok(eclipse) = asked {
            *numbers = eclipse_numbers(&eclipse);
        }
    }

    fn hours(&self, month: MonthName, numbers: &mut [u32; HOURS_NUMBERS]) {
        let asked = hours::asked(
            month.calendar.into(),
            month.year.into(),
            month.month.into(),
            month.leap,
        );
        if let Ok(hours) = asked {
            *numbers = hours_numbers(&hours);
        }
    }

    fn moons(&self, month: MonthName, dates: &mut [f64; MOONS_NUMBERS]) {
        let asked = instants::asked(
            month.calendar.into(),
            month.year.into(),
            month.month.into(),
            month.leap,
        );
        if let Ok(moons) = asked {
            *dates = [moons.new, moons.full];
        }
    }
}

fn month_numbers(month: &months::Month) -> [u32; 4] {
    [
        month.number as u32,
        month.leap.into(),
        month.length as u32,
        month.first_day as u32,
    ]
}

pub fn eclipse_numbers(eclipse: &eclipse::Eclipse) -> [u32; ECLIPSE_NUMBERS] {
    eclipse.numbers().map(|number| number as u32)
}

pub fn hours_numbers(hours: &hours::Hours) -> [u32; HOURS_NUMBERS] {
    hours.numbers().map(|number| number as u32)
}

pub fn date_number(year: u64, month: u64, leap: bool, day: u64) -> u64 {
    u64::from(leap) * 100_000_000 + year * 10_000 + month * 100 + day
}

/// Puts a year's months, each as number, leap, length and first day, where the
/// library puts them, and the year's days, leap number and count of months in
/// front.
pub fn put_months(months: impl Iterator<Item = [u32; 4]>, numbers: &mut [u32; YEAR_NUMBERS]) {
    let (year, places) = numbers.split_at_mut(3);
    for (place, month) in places.chunks_exact_mut(4).zip(months) {
        place.copy_from_slice(&month);
        let [number, leap, length, _] = month;
        year[0] += length;
        year[1] += number * leap;
        year[2] += 1;
    }
}
