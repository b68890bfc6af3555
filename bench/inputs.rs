//! The questions of a run: drawn at random, and the same in every run.

use crate::array::Array;
use crate::questions::{Changed, Date, Day, DayInRun, MonthName, Record, Year};
use crate::runs::{Change, Run};
use peer::calendar::{self, Calendar};
use peer::eclipse;
use peer::months::{self, Month};
use std::ops::RangeInclusive;

/// So many that no processor learns the course of a search by heart.
pub const COUNT: usize = 20_000;

/// Fewer where each call takes some two hundred times as long.
pub const COUNT_ON_RUNS: usize = 2_000;

const SEED: u64 = 0x2545_F491_4F6C_DD1D;

/// A shift register of 64 bits.
pub struct Random(u64);

impl Random {
    pub fn seeded() -> Random {
        Random(SEED)
    }

    fn draw<T: Copy>(&mut self, from: &[T]) -> Vec<T> {
        (0..COUNT).map(|_| self.one_of(from)).collect()
    }

    fn one_of<T: Copy>(&mut self, from: &[T]) -> T {
        from[self.below(from.len())]
    }

    fn below(&mut self, bound: usize) -> usize {
        self.0 ^= self.0 << 13;
        self.0 ^= self.0 >> 7;
        self.0 ^= self.0 << 17;
        (self.0 % bound as u64) as usize
    }
}

/// Days of all covered years, and of the earliest and latest by themselves: a
/// late day must be no slower than an early one.
pub fn days(random: &mut Random) -> [(&'static str, Vec<Day>); 4] {
    let senmyo = |years| days_of(Calendar::Senmyo, years);
    let genka = days_of(Calendar::Genka, Calendar::Genka.years());
    let both = [senmyo(Calendar::Senmyo.years()), genka.clone()].concat();
    [
        ("both calendars", both),
        ("Senmyo 822 to 850", senmyo(822..=850)),
        ("Senmyo 1655 to 1684", senmyo(1655..=1684)),
        ("Genka", genka),
    ]
    .map(|(name, days)| (name, random.draw(&days)))
}

fn days_of(calendar: Calendar, years: RangeInclusive<i64>) -> Vec<Day> {
    let mut days = Vec::new();
    for year in months::years(calendar, years) {
        days.extend(year.months.iter().flat_map(|month| month.days()));
    }
    let calendar = calendar.number() as u32;
    let day = |number| Day {
        calendar,
        number: number as u32,
    };
    days.into_iter().map(day).collect()
}

pub fn dates(array: &Array, days: &[Day]) -> Vec<Date> {
    days.iter().filter_map(|&day| array.date_of(day)).collect()
}

pub fn years(random: &mut Random) -> Vec<Year> {
    let mut years = Vec::new();
    for calendar in calendar::ALL {
        years.extend(calendar.years().map(|number| Year {
            calendar: calendar.number() as u32,
            number: number as u32,
        }));
    }
    random.draw(&years)
}

pub fn months_of(random: &mut Random, calendars: &[Calendar]) -> Vec<MonthName> {
    random.draw(&names(calendars, |_| true))
}

pub fn eclipsed_months(random: &mut Random) -> Vec<MonthName> {
    let eclipsed = |month: &Month| eclipse::of_month(month.new_moon).happens();
    random.draw(&names(&[Calendar::Senmyo], eclipsed))
}

fn names(calendars: &[Calendar], named: impl Fn(&Month) -> bool) -> Vec<MonthName> {
    let mut names = Vec::new();
    for &calendar in calendars {
        for year in months::covered_years(calendar) {
            let months = year.months.iter().filter(|month| named(month));
            names.extend(months.map(|month| MonthName {
                calendar: calendar.number() as u32,
                year: year.number as u32,
                month: month.number as u32,
                leap: month.leap,
            }));
        }
    }
    names
}

/// A run of so many years from each covered year that so many and one more
/// follow.
pub fn runs(years: i64) -> Vec<Run> {
    let mut runs = Vec::new();
    for calendar in calendar::ALL {
        let covered = months::covered_years(calendar);
        let followed = covered.windows(years as usize + 1);
        runs.extend(followed.map(|held| Run::of(&held[..years as usize])));
    }
    runs
}

pub fn days_in_runs<'a>(random: &mut Random, runs: &'a [Run]) -> Vec<DayInRun<'a>> {
    let day = |_| {
        let run = &runs[random.below(runs.len())];
        let days: Vec<u32> = run.days().collect();
        DayInRun {
            run,
            day: random.one_of(&days),
        }
    };
    (0..COUNT_ON_RUNS).map(day).collect()
}

pub fn changes<'a>(random: &mut Random, runs: &'a [Run], change: Change) -> Vec<Changed<'a>> {
    let changed = |_| Changed {
        run: &runs[random.below(runs.len())],
        change,
    };
    (0..COUNT_ON_RUNS).map(changed).collect()
}

pub fn records(array: &Array, years: &[Year]) -> Vec<Record> {
    let records = years.iter().filter_map(|&year| array.record_of(year));
    records.map(Record).collect()
}
