//! What the commands print.

use crate::calendar::cycle_number;
use crate::eclipse::{self, Eclipse};
use crate::instants;
use crate::months::{Month, Year};
use crate::refusal::Refusal;
use crate::worked::Figure;

pub fn year_table(year: &Year) -> String {
    let head = [
        year.calendar.number(),
        year.number,
        year.days(),
        year.leap_number(),
    ];
    let months: String = year.months.iter().map(month_line).collect();
    line(&head) + &months
}

fn month_line(month: &Month) -> String {
    line(&[
        month.number,
        i64::from(month.leap),
        month.length,
        month.first_day,
        cycle_number(month.first_day),
    ])
}

pub fn year_line(year: &Year) -> String {
    let mut numbers = vec![
        year.calendar.number(),
        year.number,
        year.days(),
        year.leap_number(),
        year.first_day(),
    ];
    numbers.extend(year.months.iter().map(|month| month.length));
    line(&numbers)
}

/// A line for each month of a Senmyo year whose full moon is eclipsed.
pub fn eclipse_lines(year: &Year) -> String {
    let eclipses = year
        .months
        .iter()
        .map(|month| (month, eclipse::of_month(month.new_moon)));
    eclipses
        .filter(|(_, eclipse)| eclipse.happens())
        .map(|(month, eclipse)| eclipse_line(year, month, &eclipse))
        .collect()
}

fn eclipse_line(year: &Year, month: &Month, eclipse: &Eclipse) -> String {
    let mut numbers = vec![year.number, month.number, i64::from(month.leap)];
    numbers.extend(eclipse.numbers());
    line(&numbers)
}

pub fn instant_lines(year: &Year) -> String {
    let months = year.months.iter();
    months.map(|month| instant_line(year, month)).collect()
}

/// The two dates are told by their bits.
fn instant_line(year: &Year, month: &Month) -> String {
    let moons = instants::moons(year.calendar, month.new_moon);
    format!(
        "{} {} {} {} {:016x} {:016x}\n",
        year.calendar.number(),
        year.number,
        month.number,
        i64::from(month.leap),
        moons.new.to_bits(),
        moons.full.to_bits(),
    )
}

pub fn refused(refusal: Refusal) -> String {
    format!("refused {}\n", refusal.number())
}

pub fn figure_line(figure: &Figure) -> String {
    let verdict = if figure.agrees() {
        String::new()
    } else {
        format!(", not {}", figure.expected)
    };
    format!("{}: {}{}\n", figure.name, figure.worked, verdict)
}

pub fn line(numbers: &[i64]) -> String {
    let words: Vec<String> = numbers.iter().map(i64::to_string).collect();
    words.join(" ") + "\n"
}

pub fn hexadecimal(bytes: &[u8]) -> String {
    let words: Vec<String> = bytes.iter().map(|byte| format!("{byte:02x}")).collect();
    words.join(" ")
}
