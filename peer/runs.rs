//! What the calls on a kept run answer to what the program `check_listing`
//! tries. Of a run are told the four numbers that stand before its places, and
//! the sums over all places of the first days and of the last dates, each date
//! as one number; of a full run, every place.

use crate::dates::Date;
use crate::refusal;
use crate::run::{self, Answer, Place, Run};

const OPENINGS: [(u64, u64); 17] = [
    (1, 1522),
    (1, 822),
    (1, 1684),
    (2, 445),
    (2, 697),
    (1, 821),
    (1, 1685),
    (2, 444),
    (2, 698),
    (2, 1522),
    (1, 643),
    (0, 1522),
    (3, 1522),
    (257, 1522),
    (1, 67058),
    (1, u64::MAX),
    (u64::MAX, u64::MAX),
];

const USED: usize = 20;
const LAST: usize = run::ROOM - 1;

/// Each is done to a copy of the run of 1522 to 1524; the first does nothing.
const DAMAGES: [fn(&mut Run); 29] = [
    |_| (),
    |run| run.calendar = 0,
    |run| run.calendar = 2,
    |run| run.calendar = 255,
    |run| run.first_year = 1521,
    |run| run.first_year = 1523,
    |run| run.first_year = 0,
    |run| run.first_year = 65535,
    |run| run.years = 0,
    |run| run.years = 2,
    |run| run.years = 4,
    |run| run.years = 15,
    |run| run.years = 255,
    |run| run.count = 36,
    |run| run.count = 38,
    |run| run.count = 0,
    |run| run.places[USED].year += 1,
    |run| run.places[USED].number += 1,
    |run| run.places[USED].leap ^= true,
    |run| run.places[USED].length += 1,
    |run| run.places[USED].first_day += 1,
    |run| run.places[LAST].year = 1,
    |run| run.places[LAST].number = 1,
    |run| run.places[LAST].leap = true,
    |run| run.places[LAST].length = 1,
    |run| run.places[LAST].first_day = 1,
    leave_a_year_too_many,
    leave_the_oldest_year,
    |run| *run = run::ZEROS,
];

const DATES: [Date; 25] = [
    (1521, 1, false, 1),
    (1525, 1, false, 1),
    (0, 1, false, 1),
    (67058, 1, false, 1),
    (u64::MAX, u64::MAX, true, u64::MAX),
    (1521, 13, false, 0),
    (1522, 0, false, 1),
    (1522, 13, false, 1),
    (1522, 257, false, 1),
    (1522, u64::MAX, false, 1),
    (1522, 3, true, 1),
    (1522, 13, true, 0),
    (1522, 12, false, 30),
    (1522, 12, false, 31),
    (1523, 1, false, 1),
    (1523, 3, false, 30),
    (1523, 3, false, 31),
    (1523, 3, true, 0),
    (1523, 3, true, 1),
    (1523, 3, true, 29),
    (1523, 3, true, 30),
    (1523, 3, true, 257),
    (1523, 3, true, u64::MAX),
    (1524, 12, false, 30),
    (1524, 12, false, 31),
];

const DAYS: [u64; 11] = [
    0,
    2_276_995,
    2_276_996,
    2_277_349,
    2_277_350,
    2_277_733,
    2_277_734,
    2_278_087,
    2_278_088,
    4_297_244_292,
    u64::MAX,
];

pub fn all() -> String {
    let openings: String = OPENINGS.into_iter().map(opening_line).collect();
    let kept = kept_lines(1, 1523) + &kept_lines(2, 638);
    openings + &kept + &last_year_lines() + &damaged_lines() + &look_up_lines()
}

fn opening_line((calendar, year): (u64, u64)) -> String {
    let answer = run::open(calendar, year);
    format!("{calendar} {year} {}\n", answer_words(&answer))
}

/// A run filled, looked through, moved on by a year, emptied down to a year, and
/// extended again.
fn kept_lines(calendar: u64, year: u64) -> String {
    let mut lines = String::new();
    let mut run = opened(calendar, year, &mut lines);
    repeat(run::extend, 15, &mut run, &mut lines);
    lines.extend(run.places.iter().map(place_line));
    let months = run.places.iter().filter(|place| is_used(place));
    lines.extend(months.map(|month| month_line(&run, month)));
    repeat(run::drop_oldest, 1, &mut run, &mut lines);
    repeat(run::extend, 1, &mut run, &mut lines);
    repeat(run::drop_oldest, 15, &mut run, &mut lines);
    repeat(run::extend, 3, &mut run, &mut lines);
    lines
}

/// Runs that reach a calendar's last year, of fourteen years and of one.
fn last_year_lines() -> String {
    let mut lines = String::new();
    let mut run = opened(1, 1671, &mut lines);
    repeat(run::extend, 15, &mut run, &mut lines);
    let mut run = opened(2, 697, &mut lines);
    repeat(run::extend, 1, &mut run, &mut lines);
    repeat(run::drop_oldest, 1, &mut run, &mut lines);
    lines
}

fn opened(calendar: u64, year: u64, lines: &mut String) -> Run {
    let answer = run::open(calendar, year);
    *lines += &answer_line(&answer);
    let (_, run) = answer;
    run
}

/// Each time the call is given the run that it answered the time before.
fn repeat(call: fn(&Run) -> Answer, times: usize, run: &mut Run, lines: &mut String) {
    for _ in 0..times {
        let answer = call(run);
        *lines += &answer_line(&answer);
        (_, *run) = answer;
    }
}

fn place_line(place: &Place) -> String {
    format!("{} {}\n", place.first_day, last_date(place))
}

/// The last date of a month as one number: year, month and day side by side, and
/// 100,000,000 more in a leap month.
fn last_date(place: &Place) -> u64 {
    let month = u64::from(place.year) * 100 + u64::from(place.number);
    u64::from(place.leap) * 100_000_000 + month * 100 + u64::from(place.length)
}

/// The days of the month's first and last date and of the date past it, and
/// the dates of its first and last day.
fn month_line(run: &Run, month: &Place) -> String {
    let length = u64::from(month.length);
    let first_day = u64::from(month.first_day);
    let date = |day| (month.year.into(), month.number.into(), month.leap, day);
    let days = [1, length, length + 1].map(|day| day_words(run, date(day)));
    let dates = [first_day, first_day + length - 1].map(|day| date_words(run, day));
    format!(
        "{} {} {} {} {}\n",
        month.year,
        month.number,
        u8::from(month.leap),
        days.join(" "),
        dates.join(" "),
    )
}

fn damaged_lines() -> String {
    let damages = DAMAGES.into_iter().enumerate();
    damages.map(damaged_line).collect()
}

fn damaged_line((number, damage): (usize, fn(&mut Run))) -> String {
    let mut run = run_from_1522(3);
    damage(&mut run);
    format!(
        "{number} {} {} {} {}\n",
        answer_words(&run::extend(&run)),
        answer_words(&run::drop_oldest(&run)),
        day_words(&run, (1523, 3, true, 1)),
        date_words(&run, 2_277_350),
    )
}

/// As if opening had filled the places of later years too.
fn leave_a_year_too_many(run: &mut Run) {
    run.places = run_from_1522(4).places;
}

/// As if dropping had changed the head only.
fn leave_the_oldest_year(run: &mut Run) {
    run.first_year = 1523;
    run.years = 2;
    run.count = 25;
}

fn run_from_1522(years: usize) -> Run {
    let (_, opened) = run::open(1, 1522);
    (1..years).fold(opened, |run, _| run::extend(&run).1)
}

fn look_up_lines() -> String {
    let run = run_from_1522(3);
    let days = DATES.into_iter().map(|date| day_line(&run, date));
    let dates = DAYS.into_iter().map(|day| date_line(&run, day));
    days.chain(dates).collect()
}

fn day_line(run: &Run, date: Date) -> String {
    format!("{} {}\n", words_of(date), day_words(run, date))
}

fn date_line(run: &Run, day: u64) -> String {
    format!("{day} {}\n", date_words(run, day))
}

fn day_words(run: &Run, date: Date) -> String {
    let answer = run::day_of(run, date);
    format!("{} {}", refusal::number(answer), answer.unwrap_or(0))
}

fn date_words(run: &Run, day: u64) -> String {
    let answer = run::date_of(run, day);
    let date = answer.unwrap_or((0, 0, false, 0));
    format!("{} {}", refusal::number(answer), words_of(date))
}

fn words_of((year, month, leap, day): Date) -> String {
    format!("{year} {month} {} {day}", u8::from(leap))
}

fn answer_line(answer: &Answer) -> String {
    answer_words(answer) + "\n"
}

fn answer_words((refusal, run): &Answer) -> String {
    let first_days = run.places.iter().map(|place| u64::from(place.first_day));
    let last_dates = run.places.iter().map(last_date);
    format!(
        "{refusal} {} {} {} {} {} {}",
        run.calendar,
        run.first_year,
        run.years,
        run.count,
        first_days.sum::<u64>(),
        last_dates.sum::<u64>(),
    )
}

fn is_used(place: &Place) -> bool {
    place.number != 0
}
