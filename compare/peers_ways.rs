//! The peer against itself: a year, a day and a date, each worked out alone, as
//! the library is asked for them, and in the list of all covered years.

use crate::comparison::Comparison;
use crate::expected::{self, date_number, year_numbers};
use crate::listing::{self, Listing};
use crate::question::Question;
use crate::room::{Answer, ROOM};
use peer::months::{self, Month, Year};

pub fn compare(comparison: &mut Comparison, listings: &[Listing]) {
    years(comparison, listings);
    comparison.end_part("the peer's years, alone and in its list");
    days(comparison, listings);
    comparison.end_part("the peer's days and dates, alone and in its list");
}

fn years(comparison: &mut Comparison, listings: &[Listing]) {
    for year in listings.iter().flat_map(|listing| &listing.years) {
        let alone = months::covered(year.calendar.number(), year.number);
        let name = (year.calendar.number(), year.number);
        comparison.compare(&name, &numbers(&alone), &numbers(year));
    }
}

fn days(comparison: &mut Comparison, listings: &[Listing]) {
    for (year, month) in listings.iter().flat_map(Listing::months) {
        days_of_month(comparison, year, month);
    }
}

fn days_of_month(comparison: &mut Comparison, year: &Year, month: &Month) {
    let [calendar, year, number, leap] = listing::name(year, month);
    for (place, day) in month.days().enumerate() {
        let day = day as u64;
        let of_month = place as u64 + 1;
        let date = date_number((year, number, month.leap, of_month));
        look_up(comparison, Question::Date([calendar, day]), date);
        look_up(
            comparison,
            Question::Day([calendar, year, number, leap, of_month]),
            day,
        );
    }
}

fn numbers(year: &Year) -> (Vec<u32>, Vec<i64>) {
    let new_moons = year.months.iter().map(|month| month.new_moon).collect();
    (year_numbers(year).to_vec(), new_moons)
}

fn look_up(comparison: &mut Comparison, question: Question, listed: u64) {
    let (alone, _) = expected::answer(&question, &[0; ROOM]);
    comparison.compare(&question, &alone, &Answer::of_number(listed));
}
