//! The year record: fields one after another, each with a head, which is its
//! tag and its length, and then its number. High bytes come first.

use crate::months::{self, Year};
use crate::refusal::Refusal;

const TAG_AND_LENGTH: usize = 3;
const LONG_MONTH: i64 = 30;

struct Field {
    tag: u8,
    length: u16,
    number: fn(&Year) -> i64,
}

const fn field(tag: u8, length: u16, number: fn(&Year) -> i64) -> Field {
    Field {
        tag,
        length,
        number,
    }
}

/// Reading takes the first two as the calendar and the year.
const FIELDS: [Field; 5] = [
    field(1, 1, |year| year.calendar.number()),
    field(2, 2, |year| year.number),
    field(3, 4, Year::first_day),
    field(4, 1, Year::leap_number),
    field(5, 2, long_months),
];

/// The fields' numbers in order.
pub type Numbers = [i64; FIELDS.len()];

impl Field {
    fn head(&self) -> [u8; TAG_AND_LENGTH] {
        let [high, low] = self.length.to_be_bytes();
        [self.tag, high, low]
    }

    fn number_length(&self) -> usize {
        usize::from(self.length)
    }

    fn bytes(&self, year: &Year) -> Vec<u8> {
        let number = (self.number)(year).to_be_bytes();
        let unused = number.len() - self.number_length();
        [&self.head()[..], &number[unused..]].concat()
    }
}

/// A bit for each month, the lowest for the first.
fn long_months(year: &Year) -> i64 {
    let months = year.months.iter().rev();
    months.fold(0, |bits, month| {
        2 * bits + i64::from(month.length == LONG_MONTH)
    })
}

pub fn length() -> usize {
    let lengths = FIELDS.iter().map(Field::number_length);
    lengths.map(|length| TAG_AND_LENGTH + length).sum()
}

pub fn of_year(year: &Year) -> Vec<u8> {
    FIELDS.iter().flat_map(|field| field.bytes(year)).collect()
}

pub fn write(calendar: u64, year: u64, buffer: &mut [u8]) -> Result<(), Refusal> {
    let filled = buffer.get_mut(..length()).ok_or(Refusal::WrongRecordSize)?;
    let year = months::asked_year(calendar, year)?;
    filled.copy_from_slice(&of_year(&year));
    Ok(())
}

pub fn read(bytes: &[u8]) -> Result<Numbers, Refusal> {
    if bytes.len() != length() {
        return Err(Refusal::WrongRecordSize);
    }
    let numbers = numbers_in(bytes).ok_or(Refusal::WrongTagOrLength)?;
    let [calendar, year, ..] = numbers;
    let year = months::year(calendar, year)?;
    if numbers == FIELDS.map(|field| (field.number)(&year)) {
        Ok(numbers)
    } else {
        Err(Refusal::WrongField)
    }
}

fn numbers_in(bytes: &[u8]) -> Option<Numbers> {
    let mut numbers = [0; FIELDS.len()];
    let mut rest = bytes;
    for (number, field) in numbers.iter_mut().zip(&FIELDS) {
        let after_head = rest.strip_prefix(&field.head())?;
        let (number_bytes, after) = after_head.split_at(field.number_length());
        *number = number_from(number_bytes);
        rest = after;
    }
    Some(numbers)
}

fn number_from(bytes: &[u8]) -> i64 {
    let bytes = bytes.iter().copied().map(i64::from);
    bytes.fold(0, |number, byte| 256 * number + byte)
}
