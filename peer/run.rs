//! The kept run: consecutive covered years of one calendar with their months in
//! order, in a room of fixed size. Its calendar, first year and number of years
//! fix the rest, so every call works the run anew from these three and compares.

use crate::calendar;
use crate::dates::Date;
use crate::months::{self, signed, Year};
use crate::refusal::Refusal;
use std::slice;

pub const MOST_YEARS: u8 = 14;
pub const ROOM: usize = 174;

/// Room for one month.
#[derive(Clone, Copy, PartialEq)]
pub struct Place {
    pub year: u16,
    pub number: u8,
    pub leap: bool,
    pub length: u8,
    pub first_day: u32,
}

const UNUSED: Place = Place {
    year: 0,
    number: 0,
    leap: false,
    length: 0,
    first_day: 0,
};

#[derive(Clone, PartialEq)]
pub struct Run {
    pub calendar: u8,
    pub first_year: u16,
    pub years: u8,
    pub count: u8,
    pub places: [Place; ROOM],
}

pub const ZEROS: Run = Run {
    calendar: 0,
    first_year: 0,
    years: 0,
    count: 0,
    places: [UNUSED; ROOM],
};

/// A refusal's number, or 0 if there is none, and the run as it is afterwards.
pub type Answer = (i64, Run);

pub fn open(calendar: u64, year: u64) -> Answer {
    let year = months::asked_year(calendar, year);
    answer(year.map(|year| of_years(slice::from_ref(&year))), &ZEROS)
}

pub fn extend(run: &Run) -> Answer {
    answer(extended(run), run)
}

pub fn drop_oldest(run: &Run) -> Answer {
    answer(shortened(run), run)
}

fn answer(changed: Result<Run, Refusal>, unchanged: &Run) -> Answer {
    match changed {
        Ok(run) => (0, run),
        Err(refusal) => (refusal.number(), unchanged.clone()),
    }
}

fn extended(run: &Run) -> Result<Run, Refusal> {
    years_held(run)?;
    let next_year = run.first_year + u16::from(run.years);
    months::year(run.calendar.into(), next_year.into())?;
    of_head(run.calendar, run.first_year, run.years + 1).ok_or(Refusal::RunIsFull)
}

fn shortened(run: &Run) -> Result<Run, Refusal> {
    years_held(run)?;
    of_head(run.calendar, run.first_year + 1, run.years - 1).ok_or(Refusal::RunOfOneYear)
}

pub fn day_of(run: &Run, (year, month, leap, day): Date) -> Result<u64, Refusal> {
    let year = months::year_among(years_held(run)?, signed(year))?;
    let month = year.month(signed(month), leap)?;
    let day = signed(day);
    if (1..=month.length).contains(&day) {
        Ok((month.first_day + day - 1) as u64)
    } else {
        Err(Refusal::NoSuchDay)
    }
}

pub fn date_of(run: &Run, day: u64) -> Result<Date, Refusal> {
    let years = years_held(run)?;
    let day = signed(day);
    let mut months = years
        .iter()
        .flat_map(|year| year.months.iter().map(move |month| (year, month)));
    let (year, month) = months
        .find(|(_, month)| month.days().contains(&day))
        .ok_or(Refusal::DayNotCovered)?;
    let day_of_month = day - month.first_day + 1;
    Ok((
        year.number as u64,
        month.number as u64,
        month.leap,
        day_of_month as u64,
    ))
}

/// The years of a run that is as the rules give it.
fn years_held(run: &Run) -> Result<Vec<Year>, Refusal> {
    years_of_head(run.calendar, run.first_year, run.years)
        .filter(|years| *run == of_years(years))
        .ok_or(Refusal::NotARun)
}

fn of_head(calendar: u8, first_year: u16, years: u8) -> Option<Run> {
    years_of_head(calendar, first_year, years).map(|years| of_years(&years))
}

/// The years of the run that these three fix; none if the years are too few or
/// too many, or not all covered.
fn years_of_head(calendar: u8, first_year: u16, years: u8) -> Option<Vec<Year>> {
    let calendar = calendar::numbered(calendar.into()).ok()?;
    if !(1..=MOST_YEARS).contains(&years) {
        return None;
    }
    let held: Vec<Year> = months::covered_years(calendar)
        .into_iter()
        .skip_while(|year| year.number != first_year.into())
        .take(years.into())
        .collect();
    (held.len() == years.into()).then_some(held)
}

fn of_years(years: &[Year]) -> Run {
    let months: Vec<Place> = years.iter().flat_map(places).collect();
    let mut run = Run {
        calendar: years[0].calendar.number() as u8,
        first_year: years[0].number as u16,
        years: years.len() as u8,
        count: months.len() as u8,
        places: [UNUSED; ROOM],
    };
    run.places[..months.len()].copy_from_slice(&months);
    run
}

fn places(year: &Year) -> Vec<Place> {
    let months = year.months.iter();
    let places = months.map(|month| Place {
        year: year.number as u16,
        number: month.number as u8,
        leap: month.leap,
        length: month.length as u8,
        first_day: month.first_day as u32,
    });
    places.collect()
}
