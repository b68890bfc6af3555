//! All covered years of a calendar, worked out together by the peer.

use peer::calendar::{self, Calendar};
use peer::months::{self, Month, Year};
use std::ops::RangeInclusive;

pub struct Listing {
    pub calendar: u64,
    pub years: Vec<Year>,
}

impl Listing {
    pub fn of_each_calendar() -> Vec<Listing> {
        calendar::ALL.into_iter().map(Listing::of).collect()
    }

    fn of(calendar: Calendar) -> Listing {
        Listing {
            calendar: calendar.number() as u64,
            years: months::covered_years(calendar),
        }
    }

    pub fn year_numbers(&self) -> RangeInclusive<u64> {
        let first = self.years[0].number as u64;
        first..=first + self.years.len() as u64 - 1
    }

    pub fn days(&self) -> RangeInclusive<u64> {
        let first = &self.years[0];
        let last = &self.years[self.years.len() - 1];
        first.first_day() as u64..=(last.first_day() + last.days() - 1) as u64
    }

    pub fn months(&self) -> impl Iterator<Item = (&Year, &Month)> {
        let years = self.years.iter();
        years.flat_map(|year| year.months.iter().map(move |month| (year, month)))
    }
}

/// Calendar, year, month and leap.
pub fn name(year: &Year, month: &Month) -> [u64; 4] {
    [
        year.calendar.number() as u64,
        year.number as u64,
        month.number as u64,
        month.leap.into(),
    ]
}
