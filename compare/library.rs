//! The library's answers.

use crate::question::Question;
use crate::room::{Answer, Filling, Place, LENT_FROM};
use crate::sieveflicker::raw;
use std::hint::black_box;

pub fn answer(question: &Question, filling: &Filling) -> Answer {
    match *question {
        Question::Day([calendar, year, month, leap, day]) => {
            Answer::of_number(raw::day(calendar, year, month, leap, day))
        }
        Question::Date([calendar, day]) => Answer::of_number(raw::date(calendar, day)),
        Question::Year([calendar, year], length) => {
            lend(filling, length, |out| raw::year(calendar, year, out))
        }
        Question::Eclipse([calendar, year, month, leap], length) => lend(filling, length, |out| {
            raw::eclipse(calendar, year, month, leap, out)
        }),
        Question::Hours([calendar, year, month, leap], length) => lend(filling, length, |out| {
            raw::hours(calendar, year, month, leap, out)
        }),
        Question::Moons([calendar, year, month, leap], length) => lend(filling, length, |out| {
            raw::moons(calendar, year, month, leap, out)
        }),
        Question::WriteRecord([calendar, year], length) => lend(filling, length, |buffer| {
            raw::write_record(calendar, year, buffer)
        }),
        Question::ReadRecord(ref bytes, length) => read(bytes.clone(), filling, length),
    }
}

/// The bytes must be as before too. The compiler may take that for granted of
/// bytes lent for reading, unless it is kept from seeing where they come from.
fn read(mut bytes: Vec<u8>, filling: &Filling, length: usize) -> Answer {
    let mut answer = lend(filling, length, |out| raw::read_record(&bytes, out));
    let afterwards = black_box(&mut bytes);
    answer
        .places
        .extend(afterwards.iter().copied().map(Place::bits));
    answer
}

fn lend<T: Place>(filling: &Filling, length: usize, call: impl FnOnce(&mut [T]) -> u8) -> Answer {
    let mut room = filling.map(T::filled);
    let number = call(&mut room[LENT_FROM..][..length]);
    Answer::of_room(number.into(), room)
}
