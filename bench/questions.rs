//! What is asked, and how it is put to a side: the answer counts as one number,
//! so that the sides can be held to each other.

use crate::runs::{Change, Run};
use crate::sides::Side;
use crate::sieveflicker::raw::{
    ECLIPSE_NUMBERS, HOURS_NUMBERS, MOONS_NUMBERS, RECORD_BYTES, RECORD_NUMBERS, YEAR_NUMBERS,
};

pub trait Question {
    fn put_to<S: Side>(&self, side: &S) -> u64;
}

/// Its date is asked for.
#[derive(Clone, Copy)]
pub struct Day {
    pub calendar: u32,
    pub number: u32,
}

/// Its day is asked for.
#[derive(Clone, Copy)]
pub struct Date {
    pub calendar: u32,
    pub year: u32,
    pub month: u32,
    pub leap: bool,
    pub day: u32,
}

#[derive(Clone, Copy)]
pub struct Year {
    pub calendar: u32,
    pub number: u32,
}

pub struct MonthsOf(pub Year);

pub struct RecordOf(pub Year);

/// Its numbers are asked for.
pub struct Record(pub [u8; RECORD_BYTES]);

#[derive(Clone, Copy)]
pub struct MonthName {
    pub calendar: u32,
    pub year: u32,
    pub month: u32,
    pub leap: bool,
}

pub struct EclipseOf(pub MonthName);

pub struct HoursOf(pub MonthName);

pub struct MoonsOf(pub MonthName);

/// The date of a day of the run is asked for.
pub struct DayInRun<'a> {
    pub run: &'a Run,
    pub day: u32,
}

pub struct Changed<'a> {
    pub run: &'a Run,
    pub change: Change,
}

impl Question for Day {
    fn put_to<S: Side>(&self, side: &S) -> u64 {
        side.date(*self)
    }
}

impl Question for Date {
    fn put_to<S: Side>(&self, side: &S) -> u64 {
        side.day(*self)
    }
}

impl Question for MonthsOf {
    fn put_to<S: Side>(&self, side: &S) -> u64 {
        let mut numbers = [0; YEAR_NUMBERS];
        side.year(self.0, &mut numbers);
        numbers.into_iter().map(u64::from).sum()
    }
}

impl Question for RecordOf {
    fn put_to<S: Side>(&self, side: &S) -> u64 {
        let mut bytes = [0; RECORD_BYTES];
        side.write_record(self.0, &mut bytes);
        bytes.into_iter().map(u64::from).sum()
    }
}

impl Question for Record {
    fn put_to<S: Side>(&self, side: &S) -> u64 {
        let mut numbers = [0; RECORD_NUMBERS];
        side.read_record(&self.0, &mut numbers);
        numbers.into_iter().map(u64::from).sum()
    }
}

impl Question for EclipseOf {
    fn put_to<S: Side>(&self, side: &S) -> u64 {
        let mut numbers = [0; ECLIPSE_NUMBERS];
        side.eclipse(self.0, &mut numbers);
        numbers.into_iter().map(u64::from).sum()
    }
}

impl Question for HoursOf {
    fn put_to<S: Side>(&self, side: &S) -> u64 {
        let mut numbers = [0; HOURS_NUMBERS];
        side.hours(self.0, &mut numbers);
        numbers.into_iter().map(u64::from).sum()
    }
}

impl Question for MoonsOf {
    fn put_to<S: Side>(&self, side: &S) -> u64 {
        let mut dates = [0.0; MOONS_NUMBERS];
        side.moons(self.0, &mut dates);
        let bits = dates.into_iter().map(f64::to_bits);
        bits.fold(0, u64::wrapping_add)
    }
}

impl Question for DayInRun<'_> {
    fn put_to<S: Side>(&self, side: &S) -> u64 {
        side.date_in(self.run, self.day)
    }
}

impl Question for Changed<'_> {
    fn put_to<S: Side>(&self, side: &S) -> u64 {
        side.changed(self.run, self.change).sum()
    }
}
