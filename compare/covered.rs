//! Every covered year, day, date, month and record, and those just outside.

use crate::comparison::Comparison;
use crate::listing::Listing;
use crate::question::{self, Question};
use crate::room::MOST_LENT;
use peer::record;
use std::ops::RangeInclusive;

const YEARS_OUTSIDE: u64 = 20;
const DAYS_OUTSIDE: u64 = 1000;
const DAYS: RangeInclusive<u64> = 0..=31;
const MONTHS: RangeInclusive<u64> = 0..=13;

type Ask = fn(&mut Comparison, &Listing);

pub fn compare(comparison: &mut Comparison, listings: &[Listing]) {
    let parts: [(&str, Ask); 8] = [
        ("years", years),
        ("days to dates", days_to_dates),
        ("dates to days", dates_to_days),
        ("eclipses", eclipses),
        ("hours", hours),
        ("instants", instants),
        ("records written", records_written),
        ("records read", records_read),
    ];
    for (name, ask) in parts {
        listings.iter().for_each(|listing| ask(comparison, listing));
        comparison.end_part(name);
    }
    comparison.end_questions("covered or just outside");
}

fn widened(range: RangeInclusive<u64>, by: u64) -> RangeInclusive<u64> {
    range.start() - by..=range.end() + by
}

fn years(comparison: &mut Comparison, listing: &Listing) {
    for year in widened(listing.year_numbers(), YEARS_OUTSIDE) {
        comparison.ask(Question::Year([listing.calendar, year], question::YEAR));
    }
}

fn days_to_dates(comparison: &mut Comparison, listing: &Listing) {
    for day in widened(listing.days(), DAYS_OUTSIDE) {
        comparison.ask(Question::Date([listing.calendar, day]));
    }
}

fn dates_to_days(comparison: &mut Comparison, listing: &Listing) {
    let dates = names(listing).flat_map(|[calendar, year, month, leap]| {
        DAYS.map(move |day| [calendar, year, month, leap, day])
    });
    for date in dates {
        comparison.ask(Question::Day(date));
    }
}

fn eclipses(comparison: &mut Comparison, listing: &Listing) {
    for name in names(listing) {
        comparison.ask(Question::Eclipse(name, question::ECLIPSE));
    }
}

fn hours(comparison: &mut Comparison, listing: &Listing) {
    for name in names(listing) {
        comparison.ask(Question::Hours(name, question::HOURS));
    }
}

fn instants(comparison: &mut Comparison, listing: &Listing) {
    for name in names(listing) {
        comparison.ask(Question::Moons(name, question::MOONS));
    }
}

/// Every name that a month might have, whether one has it or not.
fn names(listing: &Listing) -> impl Iterator<Item = [u64; 4]> {
    let calendar = listing.calendar;
    widened(listing.year_numbers(), YEARS_OUTSIDE).flat_map(move |year| {
        MONTHS.flat_map(move |month| [0, 1].map(|leap| [calendar, year, month, leap]))
    })
}

fn records_written(comparison: &mut Comparison, listing: &Listing) {
    for year in widened(listing.year_numbers(), YEARS_OUTSIDE) {
        comparison.ask(Question::WriteRecord([listing.calendar, year], MOST_LENT));
    }
}

fn records_read(comparison: &mut Comparison, listing: &Listing) {
    for year in &listing.years {
        comparison.ask(Question::ReadRecord(
            record::of_year(year),
            question::RECORD_READ,
        ));
    }
}
