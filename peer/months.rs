//! Years one after another as a list of months, numbered by the mid-terms they
//! hold and cut into years at the Rain Waters.

use crate::calendar::{self, Calendar};
use crate::refusal::Refusal;
use std::ops::{Range, RangeInclusive};

pub struct Month {
    pub new_moon: i64,
    pub number: i64,
    pub leap: bool,
    pub first_day: i64,
    pub length: i64,
}

pub struct Year {
    pub calendar: Calendar,
    pub number: i64,
    pub months: Vec<Month>,
}

impl Month {
    pub fn days(&self) -> Range<i64> {
        self.first_day..self.first_day + self.length
    }
}

impl Year {
    pub fn first_day(&self) -> i64 {
        self.months[0].first_day
    }

    pub fn days(&self) -> i64 {
        self.months.iter().map(|month| month.length).sum()
    }

    pub fn leap_number(&self) -> i64 {
        let leap = self.months.iter().find(|month| month.leap);
        leap.map_or(0, |month| month.number)
    }

    pub fn month(&self, number: i64, leap: bool) -> Result<&Month, Refusal> {
        self.months
            .iter()
            .find(|month| month.number == number && month.leap == leap)
            .ok_or(Refusal::NoSuchMonth)
    }
}

struct NewMoon {
    place: i64,
    day: i64,
}

struct MidTerm {
    number: i64,
    day: i64,
}

pub fn asked_year(calendar_number: u64, year_number: u64) -> Result<Year, Refusal> {
    year(signed(calendar_number), signed(year_number))
}

/// A number too large stands for no calendar, year, month or day, as the
/// largest does.
pub fn signed(number: u64) -> i64 {
    i64::try_from(number).unwrap_or(i64::MAX)
}

pub fn year(calendar_number: i64, year_number: i64) -> Result<Year, Refusal> {
    let calendar = calendar::numbered(calendar_number)?;
    if calendar.years().contains(&year_number) {
        year_among(years(calendar, year_number..=year_number), year_number)
    } else {
        Err(Refusal::YearNotCovered)
    }
}

/// A year that is known to be covered.
pub fn covered(calendar_number: i64, year_number: i64) -> Year {
    let Ok(year) = year(calendar_number, year_number) else {
        unreachable!("only covered years are asked for");
    };
    year
}

pub fn year_among(years: Vec<Year>, number: i64) -> Result<Year, Refusal> {
    years
        .into_iter()
        .find(|year| year.number == number)
        .ok_or(Refusal::YearNotCovered)
}

pub fn covered_years(calendar: Calendar) -> Vec<Year> {
    years(calendar, calendar.years())
}

/// The years from one to another, worked out together.
pub fn years(calendar: Calendar, numbers: RangeInclusive<i64>) -> Vec<Year> {
    let mut years: Vec<Year> = Vec::new();
    let mut months = months(calendar, &numbers).into_iter().peekable();
    for number in numbers {
        let mut of_year: Vec<Month> = months.next().into_iter().collect();
        while let Some(month) = months.next_if(|month| !holds_rain_water(month)) {
            of_year.push(month);
        }
        years.push(Year {
            calendar,
            number,
            months: of_year,
        });
    }
    years
}

fn holds_rain_water(month: &Month) -> bool {
    month.number == 1 && !month.leap
}

/// From month 1 of the first year to month 1 after the last.
fn months(calendar: Calendar, years: &RangeInclusive<i64>) -> Vec<Month> {
    let mid_terms = mid_terms(calendar, years);
    let mut months = Vec::new();
    let mut number = 0;
    for pair in new_moons(calendar, years).windows(2) {
        let days = pair[0].day..pair[1].day;
        let earlier = mid_terms.partition_point(|mid_term| mid_term.day < days.start);
        let next = mid_terms.get(earlier);
        let held = next.filter(|mid_term| mid_term.day < days.end);
        number = held.map_or(number, |mid_term| mid_term.number);
        months.push(Month {
            new_moon: pair[0].place,
            number,
            leap: held.is_none(),
            first_day: days.start,
            length: days.end - days.start,
        });
    }
    months
}

/// From the first year's Rain Water to the one after the last year's.
fn mid_terms(calendar: Calendar, years: &RangeInclusive<i64>) -> Vec<MidTerm> {
    let first = calendar.rain_water(*years.start());
    let last = calendar.rain_water(*years.end() + 1);
    (first..=last)
        .map(|mid_term| MidTerm {
            number: calendar.mid_term_number(mid_term),
            day: calendar.mid_term_day(mid_term),
        })
        .collect()
}

/// From the last by the first mid-term's day to the first after the last one's.
fn new_moons(calendar: Calendar, years: &RangeInclusive<i64>) -> Vec<NewMoon> {
    let first_mid_term = calendar.rain_water(*years.start());
    let last_mid_term = calendar.rain_water(*years.end() + 1);
    let mut place = calendar.new_moon_before(first_mid_term);
    while calendar.first_day(place + 1) <= calendar.mid_term_day(first_mid_term) {
        place += 1;
    }
    let mut new_moons = Vec::new();
    loop {
        let day = calendar.first_day(place);
        new_moons.push(NewMoon { place, day });
        if day > calendar.mid_term_day(last_mid_term) {
            return new_moons;
        }
        place += 1;
    }
}
