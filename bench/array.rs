//! A plain array of all months of each calendar, in order, to be searched;
//! their moons, eclipses and hours lie in arrays of their own, in the same order.

use crate::questions::{Date, Day, MonthName, Year};
use crate::runs::Run;
use crate::sides::{date_number, eclipse_numbers, hours_numbers, put_months, Side};
use crate::sieveflicker::raw::{
    ECLIPSE_NUMBERS, HOURS_NUMBERS, MOONS_NUMBERS, RECORD_BYTES, RECORD_NUMBERS, YEAR_NUMBERS,
};
use peer::calendar::Calendar;
use peer::months::covered_years;
use peer::{eclipse, hours, instants};

const LONG_MONTH: u32 = 30;

/// The tags and lengths of a record, and zeros for its numbers.
const BARE_RECORD: [u8; RECORD_BYTES] = *b"\
    \x01\0\x01\0\
    \x02\0\x02\0\0\
    \x03\0\x04\0\0\0\0\
    \x04\0\x01\0\
    \x05\0\x02\0\0";

struct Month {
    year: u32,
    number: u32,
    leap: bool,
    length: u32,
    first_day: u32,
}

impl Month {
    fn name(&self) -> (u32, u32, bool) {
        (self.year, self.number, self.leap)
    }
}

pub struct Array {
    senmyo: Vec<Month>,
    genka: Vec<Month>,
    senmyo_moons: Vec<[f64; MOONS_NUMBERS]>,
    genka_moons: Vec<[f64; MOONS_NUMBERS]>,
    eclipses: Vec<[u32; ECLIPSE_NUMBERS]>,
    /// None where there is no eclipse.
    hours: Vec<Option<[u32; HOURS_NUMBERS]>>,
}

impl Array {
    pub fn worked_out() -> Array {
        Array {
            senmyo: all_months(Calendar::Senmyo),
            genka: all_months(Calendar::Genka),
            senmyo_moons: all_moons(Calendar::Senmyo),
            genka_moons: all_moons(Calendar::Genka),
            eclipses: all_eclipses(),
            hours: all_hours(),
        }
    }

    fn months(&self, calendar: u32) -> &[Month] {
        match calendar {
            1 => &self.senmyo,
            2 => &self.genka,
            _ => &[],
        }
    }

    fn months_of(&self, year: Year) -> &[Month] {
        let months = self.months(year.calendar);
        let start = months.partition_point(|month| month.year < year.number);
        let rest = &months[start..];
        let count = rest.iter().take_while(|month| month.year == year.number);
        &rest[..count.count()]
    }

    pub fn date_of(&self, day: Day) -> Option<Date> {
        let months = self.months(day.calendar);
        let begun = months.partition_point(|month| month.first_day <= day.number);
        let month = &months[begun.checked_sub(1)?];
        let days_before = day.number - month.first_day;
        (days_before < month.length).then_some(Date {
            calendar: day.calendar,
            year: month.year,
            month: month.number,
            leap: month.leap,
            day: days_before + 1,
        })
    }

    fn place_of(&self, calendar: u32, name: (u32, u32, bool)) -> Option<usize> {
        let months = self.months(calendar);
        months.binary_search_by_key(&name, Month::name).ok()
    }

    fn day_of(&self, date: Date) -> Option<u32> {
        let place = self.place_of(date.calendar, (date.year, date.month, date.leap))?;
        let month = &self.months(date.calendar)[place];
        (1..=month.length)
            .contains(&date.day)
            .then(|| month.first_day + date.day - 1)
    }

    fn eclipse_of(&self, month: MonthName) -> Option<[u32; ECLIPSE_NUMBERS]> {
        let place = self.place_of(month.calendar, (month.year, month.month, month.leap))?;
        Some(self.eclipses[place])
    }

    fn hours_of(&self, month: MonthName) -> Option<[u32; HOURS_NUMBERS]> {
        let place = self.place_of(month.calendar, (month.year, month.month, month.leap))?;
        self.hours[place]
    }

    fn moons_of(&self, month: MonthName) -> Option<[f64; MOONS_NUMBERS]> {
        let place = self.place_of(month.calendar, (month.year, month.month, month.leap))?;
        Some(match month.calendar {
            1 => self.senmyo_moons[place],
            _ => self.genka_moons[place],
        })
    }

    pub fn extended(&self, run: &Run) -> Run {
        let mut run = run.clone();
        let next = Year {
            calendar: run.calendar.into(),
            number: u32::from(run.first_year) + u32::from(run.years),
        };
        for month in self.months_of(next) {
            let place = usize::from(run.count);
            run.first_days[place] = month.first_day;
            run.last_dates[place] = date_number(
                month.year.into(),
                month.number.into(),
                month.leap,
                month.length.into(),
            ) as u32;
            run.count += 1;
        }
        run.years += 1;
        run
    }

    pub fn record_of(&self, year: Year) -> Option<[u8; RECORD_BYTES]> {
        let months = self.months_of(year);
        let first = months.first()?;
        let leap = months.iter().find(|month| month.leap);
        let long_months = months.iter().rev().fold(0u16, |bits, month| {
            2 * bits + u16::from(month.length == LONG_MONTH)
        });
        let mut record = BARE_RECORD;
        record[3] = year.calendar as u8;
        record[7..9].copy_from_slice(&(year.number as u16).to_be_bytes());
        record[12..16].copy_from_slice(&first.first_day.to_be_bytes());
        record[19] = leap.map_or(0, |month| month.number as u8);
        record[23..].copy_from_slice(&long_months.to_be_bytes());
        Some(record)
    }
}

fn all_months(calendar: Calendar) -> Vec<Month> {
    let mut months = Vec::new();
    for year in covered_years(calendar) {
        months.extend(year.months.iter().map(|month| Month {
            year: year.number as u32,
            number: month.number as u32,
            leap: month.leap,
            length: month.length as u32,
            first_day: month.first_day as u32,
        }));
    }
    months
}

/// What is worked out of each month's new moon, in order.
fn of_all_months<T>(calendar: Calendar, work_out: impl Fn(i64) -> T) -> Vec<T> {
    let years = covered_years(calendar);
    let months = years.iter().flat_map(|year| &year.months);
    months.map(|month| work_out(month.new_moon)).collect()
}

fn all_moons(calendar: Calendar) -> Vec<[f64; MOONS_NUMBERS]> {
    of_all_months(calendar, |new_moon| {
        let moons = instants::moons(calendar, new_moon);
        [moons.new, moons.full]
    })
}

fn all_eclipses() -> Vec<[u32; ECLIPSE_NUMBERS]> {
    of_all_months(Calendar::Senmyo, |new_moon| {
        eclipse_numbers(&eclipse::of_month(new_moon))
    })
}

fn all_hours() -> Vec<Option<[u32; HOURS_NUMBERS]>> {
    of_all_months(Calendar::Senmyo, |new_moon| {
        hours::of_month(new_moon).as_ref().map(hours_numbers)
    })
}

impl Side for Array {
    fn date(&self, day: Day) -> u64 {
        self.date_of(day).map_or(0, |date| {
            let Date {
                year,
                month,
                leap,
                day,
                ..
            } = date;
            date_number(year.into(), month.into(), leap, day.into())
        })
    }

    fn day(&self, date: Date) -> u64 {
        self.day_of(date).map_or(0, u64::from)
    }

    fn year(&self, year: Year, numbers: &mut [u32; YEAR_NUMBERS]) {
        let months = self.months_of(year).iter();
        let in_numbers = months.map(|month| {
            [
                month.number,
                month.leap.into(),
                month.length,
                month.first_day,
            ]
        });
        put_months(in_numbers, numbers);
    }

    fn write_record(&self, year: Year, bytes: &mut [u8; RECORD_BYTES]) {
        if let Some(record) = self.record_of(year) {
            *bytes = record;
        }
    }

    fn read_record(&self, bytes: &[u8; RECORD_BYTES], numbers: &mut [u32; RECORD_NUMBERS]) {
        let number = |from: usize, to: usize| {
            let bytes = bytes[from..to].iter().copied().map(u32::from);
            bytes.fold(0, |number, byte| 256 * number + byte)
        };
        let read = [
            number(3, 4),
            number(7, 9),
            number(12, 16),
            number(19, 20),
            number(23, 25),
        ];
        let [calendar, year, ..] = read;
        let year = Year {
            calendar,
            number: year,
        };
        if self.record_of(year).as_ref() == Some(bytes) {
            *numbers = read;
        }
    }

    fn eclipse(&self, month: MonthName, numbers: &mut [u32; ECLIPSE_NUMBERS]) {
        if let Some(eclipse) = self.eclipse_of(month) {
            *numbers = eclipse;
        }
    }

    fn hours(&self, month: MonthName, numbers: &mut [u32; HOURS_NUMBERS]) {
        if let Some(hours) = self.hours_of(month) {
            *numbers = hours;
        }
    }

    fn moons(&self, month: MonthName, dates: &mut [f64; MOONS_NUMBERS]) {
        if let Some(moons) = self.moons_of(month) {
            *dates = moons;
        }
    }
}
