//! What writing and reading year records answers to what the program
//! `check_listing` tries.

use crate::calendar::{self, Calendar};
use crate::lines::{hexadecimal, line};
use crate::{record, refusal};

const ROOM: usize = 32;
const UNWRITTEN: u8 = 0xff;

const ASKED: [(u64, u64); 16] = [
    (0, 1522),
    (3, 1522),
    (257, 1522),
    (u64::MAX, u64::MAX),
    (1, 821),
    (1, 822),
    (1, 1684),
    (1, 1685),
    (1, 697),
    (1, 67058),
    (2, 444),
    (2, 445),
    (2, 697),
    (2, 698),
    (2, 1522),
    (1, u64::MAX),
];

/// Two bytes of a record by their places, each with the bits to flip in it.
const TWO_FLIPPED: [[(usize, u8); 2]; 6] = [
    [(0, 8), (3, 2)],
    [(16, 1), (24, 1)],
    [(3, 2), (7, 128)],
    [(3, 3), (12, 1)],
    [(7, 128), (19, 1)],
    [(12, 1), (19, 1)],
];

pub fn all() -> String {
    let years: String = calendar::ALL.into_iter().map(year_lines).collect();
    years + &flipped_lines() + &two_flipped_lines() + &length_lines() + &asked_lines()
}

/// What is read from each covered year's record, and its bytes.
fn year_lines(calendar: Calendar) -> String {
    let number = calendar.number() as u64;
    let years = calendar.years();
    years.map(|year| year_line(number, year as u64)).collect()
}

fn year_line(calendar: u64, year: u64) -> String {
    let bytes = written(calendar, year);
    let Ok(numbers) = record::read(&bytes) else {
        unreachable!("what is written can be read");
    };
    let [calendar, year, first_day, leap, long_months] = numbers;
    let bytes = hexadecimal(&bytes);
    format!("{calendar} {year} {first_day} {leap} {long_months} {bytes}\n")
}

fn written(calendar: u64, year: u64) -> Vec<u8> {
    let mut bytes = vec![UNWRITTEN; record::length()];
    let Ok(()) = record::write(calendar, year, &mut bytes) else {
        unreachable!("only covered years are written");
    };
    bytes
}

/// For each byte of a record, what reading answers when one bit of the byte is
/// flipped, from the lowest bit to the highest.
fn flipped_lines() -> String {
    let record = written(1, 1522);
    let places = 0..record.len();
    places.map(|place| flipped_line(&record, place)).collect()
}

fn flipped_line(record: &[u8], place: usize) -> String {
    let mut numbers = vec![place as i64];
    for bit in 0..8 {
        let mut bytes = record.to_vec();
        bytes[place] ^= 1 << bit;
        numbers.push(refusal::number(record::read(&bytes)));
    }
    line(&numbers)
}

/// What reading answers when two fields are wrong: the order of the refusals.
fn two_flipped_lines() -> String {
    TWO_FLIPPED.into_iter().map(two_flipped_line).collect()
}

fn two_flipped_line(flips: [(usize, u8); 2]) -> String {
    let mut bytes = written(1, 1522);
    for (place, bits) in flips {
        bytes[place] ^= bits;
    }
    let [(place, bits), (other, others)] = flips;
    let refusal = refusal::number(record::read(&bytes));
    format!("{place} {bits} {other} {others} {refusal}\n")
}

/// For each length of a buffer, what writing a record into it answers, what
/// reading from it does then, and all the room that the buffer is part of.
fn length_lines() -> String {
    (0..=ROOM).map(length_line).collect()
}

fn length_line(length: usize) -> String {
    let mut room = [UNWRITTEN; ROOM];
    let writing = refusal::number(record::write(1, 1522, &mut room[..length]));
    let reading = refusal::number(record::read(&room[..length]));
    format!("{length} {writing} {reading} {}\n", hexadecimal(&room))
}

/// For each calendar and year, what writing answers with a buffer a byte too
/// short and with one just long enough, and what the buffer holds then.
fn asked_lines() -> String {
    ASKED.into_iter().map(asked_line).collect()
}

fn asked_line((calendar, year): (u64, u64)) -> String {
    let mut buffer = vec![UNWRITTEN; record::length()];
    let short = record::write(calendar, year, &mut buffer[..record::length() - 1]);
    let short = refusal::number(short);
    let enough = refusal::number(record::write(calendar, year, &mut buffer));
    let bytes = hexadecimal(&buffer);
    format!("{calendar} {year} {short} {enough} {bytes}\n")
}
