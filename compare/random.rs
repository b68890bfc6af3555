//! Random questions of covered dates, days, months and years, in which a number
//! here and there is put wrong, with random lengths of what is lent.

use crate::comparison::Comparison;
use crate::edges::WRAPS;
use crate::generator::Generator;
use crate::listing::{self, Listing};
use crate::question::{self, Question};
use crate::room::MOST_LENT;

const LOOK_UPS: usize = 1_000_000;
const MOONS: usize = 200_000;
const YEARS: usize = 100_000;

pub fn compare(comparison: &mut Comparison, listings: &[Listing], edges: &[u64]) {
    let months = listings.iter().flat_map(Listing::months);
    let names: Vec<[u64; 4]> = months
        .map(|(year, month)| listing::name(year, month))
        .collect();
    look_ups(comparison, listings, &names, edges);
    moons(comparison, &names, edges);
    years(comparison, &names, edges);
}

fn look_ups(comparison: &mut Comparison, listings: &[Listing], names: &[[u64; 4]], edges: &[u64]) {
    comparison.ask_many(LOOK_UPS, |generator| {
        let [calendar, year, month, leap] = *generator.one_of(names);
        let day = generator.number_in(1..=30);
        let numbers = [calendar, year, month, leap, day];
        Question::Day(partly_wrong(generator, edges, numbers))
    });
    comparison.end_part("random dates");
    comparison.ask_many(LOOK_UPS, |generator| {
        let listing = generator.one_of(listings);
        let day = generator.number_in(listing.days());
        Question::Date(partly_wrong(generator, edges, [listing.calendar, day]))
    });
    comparison.end_part("random days");
}

fn moons(comparison: &mut Comparison, names: &[[u64; 4]], edges: &[u64]) {
    comparison.ask_many(MOONS, |generator| {
        let name = *generator.one_of(names);
        let name = partly_wrong(generator, edges, name);
        Question::Eclipse(name, length(generator, question::ECLIPSE))
    });
    comparison.end_part("random eclipses");
    comparison.ask_many(MOONS, |generator| {
        let name = *generator.one_of(names);
        let name = partly_wrong(generator, edges, name);
        Question::Hours(name, length(generator, question::HOURS))
    });
    comparison.end_part("random hours");
    comparison.ask_many(MOONS, |generator| {
        let name = *generator.one_of(names);
        let name = partly_wrong(generator, edges, name);
        Question::Moons(name, length(generator, question::MOONS))
    });
    comparison.end_part("random instants");
}

fn years(comparison: &mut Comparison, names: &[[u64; 4]], edges: &[u64]) {
    comparison.ask_many(YEARS, |generator| {
        let [calendar, year, ..] = *generator.one_of(names);
        let numbers = partly_wrong(generator, edges, [calendar, year]);
        Question::Year(numbers, length(generator, question::YEAR))
    });
    comparison.end_part("random years");
    comparison.ask_many(YEARS, |generator| {
        let [calendar, year, ..] = *generator.one_of(names);
        let numbers = partly_wrong(generator, edges, [calendar, year]);
        Question::WriteRecord(numbers, length(generator, question::RECORD))
    });
    comparison.end_part("random records written");
}

fn partly_wrong<const COUNT: usize>(
    generator: &mut Generator,
    edges: &[u64],
    numbers: [u64; COUNT],
) -> [u64; COUNT] {
    numbers.map(|number| {
        if generator.one_in(12) {
            put_wrong(generator, edges, number)
        } else {
            number
        }
    })
}

fn put_wrong(generator: &mut Generator, edges: &[u64], number: u64) -> u64 {
    match generator.bits() % 4 {
        0 => generator.number(),
        1 => *generator.one_of(edges),
        2 => number + generator.one_of(&WRAPS),
        _ => number + 1,
    }
}

/// Mostly enough.
pub fn length(generator: &mut Generator, needed: usize) -> usize {
    let least = if generator.one_in(4) { 0 } else { needed };
    least + generator.index(MOST_LENT - least + 1)
}
