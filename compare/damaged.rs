//! Records with one byte changed, with many changed, put together from two, and
//! random bytes.

use crate::comparison::Comparison;
use crate::generator::Generator;
use crate::listing::Listing;
use crate::question::{self, Question};
use crate::random::length;
use crate::room::MOST_LENT;
use peer::record;

/// In the sample, years of a calendar so far from one another.
const YEARS_BETWEEN: usize = 21;
const RECORDS: usize = 100_000;

/// The bytes that are no tag and no length.
const OF_FIELDS: [usize; 10] = [3, 7, 8, 12, 13, 14, 15, 19, 23, 24];

pub fn compare(comparison: &mut Comparison, listings: &[Listing]) {
    let years = listings
        .iter()
        .flat_map(|listing| listing.years.iter().step_by(YEARS_BETWEEN));
    let sample: Vec<Vec<u8>> = years.map(record::of_year).collect();
    sample
        .iter()
        .for_each(|record| one_byte_changed(comparison, record));
    comparison.end_part("records with one byte changed");
    let years = listings.iter().flat_map(|listing| &listing.years);
    let records: Vec<Vec<u8>> = years.map(record::of_year).collect();
    comparison.ask_many(RECORDS, |generator| {
        let mut bytes = generator.one_of(&records).clone();
        change_some(generator, &mut bytes);
        read(generator, bytes)
    });
    comparison.end_part("records with some bytes changed");
    comparison.ask_many(RECORDS, |generator| {
        let record = generator.one_of(&records);
        let other = generator.one_of(&records);
        let bytes = put_together(generator, record, other);
        read(generator, bytes)
    });
    comparison.end_part("records put together from two");
    comparison.ask_many(RECORDS, |generator| {
        let count = generator.index(MOST_LENT + 1);
        let bytes = (0..count).map(|_| generator.bits() as u8).collect();
        read(generator, bytes)
    });
    comparison.end_part("random bytes read");
}

fn one_byte_changed(comparison: &mut Comparison, record: &[u8]) {
    let places = 0..record.len();
    let changes = places.flat_map(|place| (0..=u8::MAX).map(move |byte| (place, byte)));
    for (place, byte) in changes {
        let mut bytes = record.to_vec();
        bytes[place] = byte;
        comparison.ask(Question::ReadRecord(bytes, question::RECORD_READ));
    }
}

fn change_some(generator: &mut Generator, bytes: &mut [u8]) {
    let anywhere = generator.one_in(4);
    for _ in 0..=generator.index(8) {
        let place = if anywhere {
            generator.index(bytes.len())
        } else {
            *generator.one_of(&OF_FIELDS)
        };
        bytes[place] = generator.bits() as u8;
    }
}

fn put_together(generator: &mut Generator, record: &[u8], other: &[u8]) -> Vec<u8> {
    let pairs = record.iter().zip(other);
    pairs
        .map(|(&byte, &of_other)| if generator.one_in(4) { of_other } else { byte })
        .collect()
}

fn read(generator: &mut Generator, bytes: Vec<u8>) -> Question {
    Question::ReadRecord(bytes, length(generator, question::RECORD_READ))
}
