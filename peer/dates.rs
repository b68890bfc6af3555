//! The day of a date and the date of a day. A division by the mean spacing of
//! new moons and at most one step back find the month; a division by that of
//! mid-terms finds its number and its year.

use crate::calendar::{self, Calendar};
use crate::months::signed;
use crate::refusal::Refusal;

/// Year, month, whether leap, and day.
pub type Date = (u64, u64, bool, u64);

const SHORT_MONTH: i64 = 29;

#[derive(Clone, Copy)]
struct Month {
    calendar: Calendar,
    new_moon: i64,
    first_day: i64,
}

pub fn day_of(calendar: u64, (year, month, leap, day): Date) -> Result<u64, Refusal> {
    let calendar = calendar::numbered(signed(calendar))?;
    let month = Month::named(calendar, signed(year), signed(month), leap)?;
    let day = month.first_day.saturating_add(signed(day) - 1);
    if month.holds(day) {
        Ok(day as u64)
    } else {
        Err(Refusal::NoSuchDay)
    }
}

/// No covered day has a number past 32 bits.
pub fn date_of(calendar: u64, day: u64) -> Result<Date, Refusal> {
    let calendar = calendar::numbered(signed(calendar))?;
    let day = u32::try_from(day).map_err(|_| Refusal::DayNotCovered)?;
    let day = i64::from(day);
    let month = Month::holding(calendar, day);
    let (year, number, leap) = month.name();
    if calendar.years().contains(&year) {
        let day_of_month = day - month.first_day + 1;
        Ok((year as u64, number as u64, leap, day_of_month as u64))
    } else {
        Err(Refusal::DayNotCovered)
    }
}

impl Month {
    fn of_new_moon(calendar: Calendar, new_moon: i64) -> Month {
        Month {
            calendar,
            new_moon,
            first_day: calendar.first_day(new_moon),
        }
    }

    fn holding(calendar: Calendar, day: i64) -> Month {
        let last = Month::of_new_moon(calendar, calendar.last_new_moon_by(day));
        if last.first_day <= day {
            last
        } else {
            Month::of_new_moon(calendar, last.new_moon - 1)
        }
    }

    fn named(calendar: Calendar, year: i64, number: i64, leap: bool) -> Result<Month, Refusal> {
        if !calendar.years().contains(&year) {
            return Err(Refusal::YearNotCovered);
        }
        if !(1..=12).contains(&number) {
            return Err(Refusal::NoSuchMonth);
        }
        let mid_term = calendar.rain_water(year) + number - 1;
        let month = Month::holding(calendar, calendar.mid_term_day(mid_term));
        if !leap {
            return Ok(month);
        }
        let next = month.next();
        if next.holds(calendar.mid_term_day(mid_term + 1)) {
            Err(Refusal::NoSuchMonth)
        } else {
            Ok(next)
        }
    }

    /// Year, number, and whether leap.
    fn name(self) -> (i64, i64, bool) {
        let earlier = self.calendar.last_mid_term_by(self.first_day - 1);
        let leap = !self.holds(self.calendar.mid_term_day(earlier + 1));
        let mid_term = if leap { earlier } else { earlier + 1 };
        let year = self.calendar.year_of_mid_term(mid_term);
        let number = self.calendar.mid_term_number(mid_term);
        (year, number, leap)
    }

    fn next(self) -> Month {
        Month::of_new_moon(self.calendar, self.new_moon + 1)
    }

    /// The next month is worked out only where a short month might not do.
    fn holds(self, day: i64) -> bool {
        day >= self.first_day && (day < self.first_day + SHORT_MONTH || day < self.next().first_day)
    }
}
