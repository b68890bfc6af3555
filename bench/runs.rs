//! Runs of years: one held in the library's own numbers, and the calls on it as
//! each side makes them. The library examines a run in every call. So does the
//! peer here: it works the run's years out anew, compares, and goes on with what
//! it worked out. (The peer's own runs work out all covered years each time: a
//! ratio to that would say nothing.) The array takes the run as it is.

use crate::array::Array;
use crate::sides::{date_number, Library, Peer};
use peer::calendar::{self, Calendar};
use peer::months::{self, Year};
use std::ops::RangeInclusive;

const PLACES: usize = 174;

#[derive(Clone, PartialEq)]
pub struct Run {
    pub calendar: u8,
    pub first_year: u16,
    pub years: u8,
    pub count: u8,
    pub first_days: [u32; PLACES],
    pub last_dates: [u32; PLACES],
}

#[derive(Clone, Copy)]
pub enum Change {
    Extend = 0,
    Drop = 1,
}

/// Every run that is asked about can be changed as it is asked to be.
pub trait Runs {
    fn date_in(&self, run: &Run, day: u32) -> u64;
    fn changed(&self, run: &Run, change: Change) -> Run;
}

impl Run {
    pub fn of(years: &[Year]) -> Run {
        let mut run = Run {
            calendar: years[0].calendar.number() as u8,
            first_year: years[0].number as u16,
            years: 0,
            count: 0,
            first_days: [0; PLACES],
            last_dates: [0; PLACES],
        };
        years.iter().for_each(|year| run.put(year));
        run
    }

    fn put(&mut self, year: &Year) {
        for month in &year.months {
            let place = usize::from(self.count);
            let last_date = date_number(
                year.number as u64,
                month.number as u64,
                month.leap,
                month.length as u64,
            );
            self.first_days[place] = month.first_day as u32;
            self.last_dates[place] = last_date as u32;
            self.count += 1;
        }
        self.years += 1;
    }

    pub fn days(&self) -> RangeInclusive<u32> {
        let last = usize::from(self.count) - 1;
        self.first_days[0]..=self.first_days[last] + self.last_dates[last] % 100 - 1
    }

    pub fn sum(&self) -> u64 {
        let places = self.first_days.iter().chain(&self.last_dates);
        let head = [self.first_year.into(), self.years.into(), self.count.into()];
        head.iter().chain(places).copied().map(u64::from).sum()
    }

    fn held_calendar(&self) -> Calendar {
        match calendar::numbered(self.calendar.into()) {
            Ok(calendar) => calendar,
            Err(_) => unreachable!("a run is of a calendar"),
        }
    }

    fn held_years(&self) -> RangeInclusive<i64> {
        let first = i64::from(self.first_year);
        first..=first + i64::from(self.years) - 1
    }
}

mod raw {
    #[link(name = "bench_run", kind = "static")]
    unsafe extern "C" {
        pub fn timed_date(
            calendar: u8,
            first_year: u16,
            years: u8,
            count: u8,
            first_days: *const u32,
            last_dates: *const u32,
            day: u64,
        ) -> u64;
        pub fn timed_change(
            drop: u8,
            calendar: *mut u8,
            first_year: *mut u16,
            years: *mut u8,
            count: *mut u8,
            first_days: *mut u32,
            last_dates: *mut u32,
        ) -> u8;
    }
}

impl Runs for Library {
    fn date_in(&self, run: &Run, day: u32) -> u64 {
        // SAFETY: both rows have the 174 numbers that the call reads.
        unsafe {
            raw::timed_date(
                run.calendar,
                run.first_year,
                run.years,
                run.count,
                run.first_days.as_ptr(),
                run.last_dates.as_ptr(),
                day.into(),
            )
        }
    }

    fn changed(&self, run: &Run, change: Change) -> Run {
        let mut run = run.clone();
        // SAFETY: each pointer is to a field of its own, and both rows have the
        // 174 numbers that the call reads and writes.
        unsafe {
            raw::timed_change(
                change as u8,
                &mut run.calendar,
                &mut run.first_year,
                &mut run.years,
                &mut run.count,
                run.first_days.as_mut_ptr(),
                run.last_dates.as_mut_ptr(),
            );
        }
        run
    }
}

impl Runs for Peer {
    fn date_in(&self, run: &Run, day: u32) -> u64 {
        let day = i64::from(day);
        let years = examined(run);
        let mut months = years
            .iter()
            .flat_map(|year| year.months.iter().map(move |month| (year, month)));
        let found = months.find(|(_, month)| month.days().contains(&day));
        found.map_or(0, |(year, month)| {
            let day_of_month = day - month.first_day + 1;
            date_number(
                year.number as u64,
                month.number as u64,
                month.leap,
                day_of_month as u64,
            )
        })
    }

    fn changed(&self, run: &Run, change: Change) -> Run {
        let mut years = examined(run);
        match change {
            Change::Extend => {
                let next = run.held_years().end() + 1;
                years.extend(months::years(run.held_calendar(), next..=next));
            }
            Change::Drop => {
                years.remove(0);
            }
        }
        Run::of(&years)
    }
}

/// The years of a run that is as the rules give it.
fn examined(run: &Run) -> Vec<Year> {
    let years = months::years(run.held_calendar(), run.held_years());
    assert!(*run == Run::of(&years), "a run is not as the rules give it");
    years
}

impl Runs for Array {
    fn date_in(&self, run: &Run, day: u32) -> u64 {
        let held = &run.first_days[..run.count.into()];
        let place = held.partition_point(|&first_day| first_day <= day) - 1;
        let last_date = u64::from(run.last_dates[place]);
        last_date / 100 * 100 + u64::from(day - run.first_days[place] + 1)
    }

    fn changed(&self, run: &Run, change: Change) -> Run {
        match change {
            Change::Extend => self.extended(run),
            Change::Drop => shortened(run),
        }
    }
}

fn shortened(run: &Run) -> Run {
    let in_first_year =
        |&&last_date: &&u32| last_date % 100_000_000 / 10_000 == run.first_year.into();
    let dropped = run.last_dates.iter().take_while(in_first_year).count();
    let mut run = run.clone();
    let kept = usize::from(run.count) - dropped;
    for row in [&mut run.first_days, &mut run.last_dates] {
        row.copy_within(dropped..dropped + kept, 0);
        row[kept..].fill(0);
    }
    run.first_year += 1;
    run.years -= 1;
    run.count = kept as u8;
    run
}
