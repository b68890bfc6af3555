//! What the program that prints a year answers to an input.

use crate::lines;
use crate::months;
use crate::refusal::Refusal;

/// The inputs that the program `check_listing` tries.
const INPUTS: [&[u8]; 26] = [
    b"1 822\n",
    b"001 000001684\n",
    b"2 445\nnothing that follows counts",
    b"2 697\n\n",
    b"0 1522\n",
    b"3 1522\n",
    b"999999999 999999999\n",
    b"1 821\n",
    b"1 1685\n",
    b"2 444\n",
    b"2 698\n",
    b"1 0\n",
    b"",
    b"\n",
    b"1 1522",
    b"1 1522\r\n",
    b"1  1522\n",
    b" 1 1522\n",
    b"1 1522 \n",
    b"1\t1522\n",
    b"1\n1522\n",
    b"1 1522 7\n",
    b"-1 1522\n",
    b"1 152x\n",
    b"0000000001 1522\n",
    b"1 0000001522\n",
];

pub fn all() -> String {
    INPUTS.map(answer).concat()
}

pub fn answer(input: &[u8]) -> String {
    let year = asked(input)
        .ok_or(Refusal::NotALine)
        .and_then(|(calendar, year)| months::year(calendar, year));
    match year {
        Ok(year) => lines::year_table(&year),
        Err(refusal) => lines::refused(refusal),
    }
}

fn asked(input: &[u8]) -> Option<(i64, i64)> {
    let end = input.iter().position(|&byte| byte == b'\n')?;
    let line = std::str::from_utf8(&input[..end]).ok()?;
    let (calendar, year) = line.split_once(' ')?;
    Some((number(calendar)?, number(year)?))
}

fn number(word: &str) -> Option<i64> {
    let digits = word.bytes().all(|byte| byte.is_ascii_digit());
    if digits && (1..=9).contains(&word.len()) {
        word.parse().ok()
    } else {
        None
    }
}
