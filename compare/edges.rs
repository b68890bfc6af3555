//! Numbers around every edge, in two places of a question at a time, and every
//! length of what is lent.

use crate::comparison::Comparison;
use crate::listing::{self, Listing};
use crate::question::{self, Question};
use crate::room::MOST_LENT;
use peer::record;

/// Where a number kept in fewer bits would begin again.
pub const WRAPS: [u64; 5] = [1 << 8, 1 << 16, 1 << 31, 1 << 32, 1 << 63];

/// Month 2 of 1522 has an eclipse, so that its hours are answered.
const ECLIPSED: [u64; 4] = [1, 1522, 2, 0];

const SMALL: [u64; 9] = [0, 1, 2, 3, 12, 13, 29, 30, 31];

pub fn compare(comparison: &mut Comparison, listings: &[Listing], edges: &[u64]) {
    for listing in listings {
        let numbers = in_a_leap_month(listing);
        let [calendar, year, month, leap, _] = numbers;
        let name = [calendar, year, month, leap];
        let first_covered = [calendar, *listing.days().start()];
        pairs(comparison, edges, numbers, Question::Day);
        pairs(comparison, edges, first_covered, Question::Date);
        pairs(comparison, edges, [calendar, year], |numbers| {
            Question::Year(numbers, question::YEAR)
        });
        pairs(comparison, edges, name, |numbers| {
            Question::Eclipse(numbers, question::ECLIPSE)
        });
        pairs(comparison, edges, name, |numbers| {
            Question::Hours(numbers, question::HOURS)
        });
        pairs(comparison, edges, name, |numbers| {
            Question::Moons(numbers, question::MOONS)
        });
        pairs(comparison, edges, [calendar, year], |numbers| {
            Question::WriteRecord(numbers, question::RECORD)
        });
    }
    pairs(comparison, edges, ECLIPSED, |numbers| {
        Question::Hours(numbers, question::HOURS)
    });
    comparison.end_part("pairs of numbers at edges");
    listings
        .iter()
        .for_each(|listing| lengths(comparison, listing));
    (0..=MOST_LENT).for_each(|length| comparison.ask(Question::Hours(ECLIPSED, length)));
    comparison.end_part("lengths lent");
}

/// The numbers around the edges, and those that fewer bits would take for them.
pub fn numbers(listings: &[Listing]) -> Vec<u64> {
    let mut edges = SMALL.to_vec();
    for listing in listings {
        let (years, days) = (listing.year_numbers(), listing.days());
        let ends = [years.start(), years.end(), days.start(), days.end()];
        edges.extend(ends.into_iter().copied().flat_map(around));
    }
    let wrapping = edges.iter().flat_map(|edge| WRAPS.map(|wrap| edge + wrap));
    edges.extend(wrapping.collect::<Vec<u64>>());
    edges.extend(WRAPS.into_iter().flat_map(around));
    edges.extend([u64::MAX - 1, u64::MAX]);
    edges.sort();
    edges.dedup();
    edges
}

fn around(number: u64) -> [u64; 3] {
    [number - 1, number, number + 1]
}

/// The first date of the first leap month.
fn in_a_leap_month(listing: &Listing) -> [u64; 5] {
    let leap_month = listing.months().find(|(_, month)| month.leap);
    let (year, month) = leap_month.expect("each calendar has leap months");
    let [calendar, year, month, leap] = listing::name(year, month);
    [calendar, year, month, leap, 1]
}

fn pairs<const COUNT: usize>(
    comparison: &mut Comparison,
    edges: &[u64],
    numbers: [u64; COUNT],
    question: impl Fn([u64; COUNT]) -> Question,
) {
    let changes = pairs_of_places(COUNT)
        .flat_map(|places| pairs_of_edges(edges).map(move |values| (places, values)));
    for ([first, second], [edge, other]) in changes {
        let mut numbers = numbers;
        numbers[first] = edge;
        numbers[second] = other;
        comparison.ask(question(numbers));
    }
}

fn pairs_of_places(count: usize) -> impl Iterator<Item = [usize; 2]> {
    (1..count).flat_map(|second| (0..second).map(move |first| [first, second]))
}

fn pairs_of_edges(edges: &[u64]) -> impl Iterator<Item = [u64; 2]> + '_ {
    edges
        .iter()
        .flat_map(|&edge| edges.iter().map(move |&other| [edge, other]))
}

fn lengths(comparison: &mut Comparison, listing: &Listing) {
    let names = with_and_without_zeros(in_a_leap_month(listing));
    let writings = (0..=MOST_LENT).flat_map(|length| names.map(|name| (name, length)));
    for (name, length) in writings {
        written_into(comparison, name, length);
    }
    let record = record::of_year(&listing.years[0]);
    let mut not_a_record = record.clone();
    not_a_record[0] += 1;
    records_of_each_length(comparison, &record);
    records_of_each_length(comparison, &not_a_record);
}

/// The month's name, and that with 0 in each place in turn.
fn with_and_without_zeros([calendar, year, month, leap, _]: [u64; 5]) -> [[u64; 4]; 5] {
    [
        [calendar, year, month, leap],
        [0, year, month, leap],
        [calendar, 0, month, leap],
        [calendar, year, 0, leap],
        [calendar, year, month, 0],
    ]
}

fn records_of_each_length(comparison: &mut Comparison, record: &[u8]) {
    let lengths = (0..=MOST_LENT)
        .flat_map(|bytes_length| (0..=MOST_LENT).map(move |length| (bytes_length, length)));
    for (bytes_length, length) in lengths {
        let mut bytes = record.to_vec();
        bytes.resize(bytes_length, 0);
        comparison.ask(Question::ReadRecord(bytes, length));
    }
}

fn written_into(comparison: &mut Comparison, name: [u64; 4], length: usize) {
    let [calendar, year, _, _] = name;
    comparison.ask(Question::Year([calendar, year], length));
    comparison.ask(Question::Eclipse(name, length));
    comparison.ask(Question::Hours(name, length));
    comparison.ask(Question::Moons(name, length));
    comparison.ask(Question::WriteRecord([calendar, year], length));
}
