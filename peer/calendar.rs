//! The two calendars behind one set of questions.

use crate::refusal::Refusal;
use crate::{genka, senmyo};
use std::ops::RangeInclusive;

#[derive(Clone, Copy)]
pub enum Calendar {
    Senmyo = 1,
    Genka = 2,
}

pub const ALL: [Calendar; 2] = [Calendar::Senmyo, Calendar::Genka];

impl Calendar {
    pub fn number(self) -> i64 {
        self as i64
    }

    pub fn years(self) -> RangeInclusive<i64> {
        match self {
            Calendar::Senmyo => senmyo::YEARS,
            Calendar::Genka => genka::YEARS,
        }
    }

    pub fn days_before_day_number_zero(self) -> i64 {
        match self {
            Calendar::Senmyo => senmyo::DAYS_BEFORE_DAY_NUMBER_ZERO,
            Calendar::Genka => genka::DAYS_BEFORE_DAY_NUMBER_ZERO,
        }
    }

    pub fn rain_water(self, year: i64) -> i64 {
        match self {
            Calendar::Senmyo => senmyo::rain_water(year),
            Calendar::Genka => genka::rain_water(year),
        }
    }

    pub fn mid_term_number(self, mid_term: i64) -> i64 {
        match self {
            Calendar::Senmyo => senmyo::mid_term_number(mid_term),
            Calendar::Genka => genka::mid_term_number(mid_term),
        }
    }

    pub fn mid_term_day(self, mid_term: i64) -> i64 {
        match self {
            Calendar::Senmyo => senmyo::mid_term_day(mid_term),
            Calendar::Genka => genka::mid_term_day(mid_term),
        }
    }

    /// The year that the month of the mid-term is in.
    pub fn year_of_mid_term(self, mid_term: i64) -> i64 {
        match self {
            Calendar::Senmyo => senmyo::year_of_mid_term(mid_term),
            Calendar::Genka => genka::year_of_mid_term(mid_term),
        }
    }

    pub fn last_mid_term_by(self, day: i64) -> i64 {
        match self {
            Calendar::Senmyo => senmyo::last_mid_term_by(day),
            Calendar::Genka => genka::last_mid_term_by(day),
        }
    }

    pub fn first_day(self, new_moon: i64) -> i64 {
        match self {
            Calendar::Senmyo => senmyo::first_day(new_moon),
            Calendar::Genka => genka::first_day(new_moon),
        }
    }

    /// The last new moon whose month may have begun by the day; the month before
    /// it certainly has.
    pub fn last_new_moon_by(self, day: i64) -> i64 {
        match self {
            Calendar::Senmyo => senmyo::last_new_moon_by(day),
            Calendar::Genka => genka::last_new_moon_by(day),
        }
    }

    /// A new moon whose month has certainly begun before the mid-term's day.
    pub fn new_moon_before(self, mid_term: i64) -> i64 {
        match self {
            Calendar::Senmyo => senmyo::new_moon_before(mid_term),
            Calendar::Genka => genka::new_moon_before(mid_term),
        }
    }
}

pub fn numbered(number: i64) -> Result<Calendar, Refusal> {
    ALL.into_iter()
        .find(|calendar| calendar.number() == number)
        .ok_or(Refusal::NoSuchCalendar)
}

/// The day's place in the sixty-day cycle, jiazi being 0.
pub fn cycle_number(day: i64) -> i64 {
    (day + 49).rem_euclid(60)
}
