//! What the library must answer: the peer's answers in the form of the library's.

use crate::question::{self, Question};
use crate::room::{Answer, Filling, Place, LENT_FROM};
use peer::dates::{self, Date};
use peer::months::{self, Month, Year};
use peer::refusal::{self, Refusal};
use peer::{eclipse, hours, instants, record};

const MOST_MONTHS: usize = 13;
const NUMBERS_OF_A_MONTH: usize = 4;

/// The answer, and the refusal's number or 0.
pub fn answer(question: &Question, filling: &Filling) -> (Answer, i64) {
    match *question {
        Question::Day([calendar, year, month, leap, day]) => {
            number(dates::day_of(calendar, (year, month, leap != 0, day)))
        }
        Question::Date([calendar, day]) => number(dates::date_of(calendar, day).map(date_number)),
        Question::Year([calendar, year], length) => write(filling, length, question::YEAR, || {
            months::asked_year(calendar, year).map(|year| year_numbers(&year).to_vec())
        }),
        Question::Eclipse([calendar, year, month, leap], length) => {
            write(filling, length, question::ECLIPSE, || {
                let eclipse = eclipse::asked(calendar, year, month, leap != 0)?;
                Ok(eclipse.numbers().map(small).to_vec())
            })
        }
        Question::Hours([calendar, year, month, leap], length) => {
            write(filling, length, question::HOURS, || {
                let hours = hours::asked(calendar, year, month, leap != 0)?;
                Ok(hours.numbers().map(small).to_vec())
            })
        }
        Question::Moons([calendar, year, month, leap], length) => {
            write(filling, length, question::MOONS, || {
                let moons = instants::asked(calendar, year, month, leap != 0)?;
                Ok(vec![moons.new, moons.full])
            })
        }
        Question::WriteRecord([calendar, year], length) => {
            write(filling, length, question::RECORD, || {
                months::asked_year(calendar, year).map(|year| record::of_year(&year))
            })
        }
        Question::ReadRecord(ref bytes, length) => {
            let (mut answer, refusal) = write(filling, length, question::RECORD_READ, || {
                Ok(record::read(bytes)?.map(small).to_vec())
            });
            answer.places.extend(bytes.iter().copied().map(Place::bits));
            (answer, refusal)
        }
    }
}

fn number(answer: Result<u64, Refusal>) -> (Answer, i64) {
    let refusal = refusal::number(answer);
    let number = answer.unwrap_or(refusal as u64);
    (Answer::of_number(number), refusal)
}

/// What is lent being too short is refused before all else.
fn write<T: Place>(
    filling: &Filling,
    length: usize,
    needed: usize,
    numbers: impl FnOnce() -> Result<Vec<T>, Refusal>,
) -> (Answer, i64) {
    let mut room = filling.map(T::filled);
    let numbers = if length < needed {
        Err(Refusal::WrongRecordSize)
    } else {
        numbers()
    };
    if let Ok(numbers) = &numbers {
        room[LENT_FROM..][..needed].copy_from_slice(numbers);
    }
    let refusal = refusal::number(numbers);
    (Answer::of_room(refusal as u64, room), refusal)
}

pub fn date_number((year, month, leap, day): Date) -> u64 {
    u64::from(leap) * 100_000_000 + year * 10_000 + month * 100 + day
}

/// Days, leap number and count, then the months; zeros for one that is lacking.
pub fn year_numbers(year: &Year) -> [u32; question::YEAR] {
    let mut numbers = [0; question::YEAR];
    let (head, places) = numbers.split_at_mut(question::YEAR - MOST_MONTHS * NUMBERS_OF_A_MONTH);
    let count = year.months.len() as u32;
    head.copy_from_slice(&[small(year.days()), small(year.leap_number()), count]);
    for (place, month) in places.chunks_mut(NUMBERS_OF_A_MONTH).zip(&year.months) {
        place.copy_from_slice(&month_numbers(month));
    }
    numbers
}

fn month_numbers(month: &Month) -> [u32; NUMBERS_OF_A_MONTH] {
    [
        small(month.number),
        month.leap.into(),
        small(month.length),
        small(month.first_day),
    ]
}

fn small(number: i64) -> u32 {
    u32::try_from(number).expect("the peer's numbers fit into 32 bits")
}
