//! New and full moons as Julian dates, which start each day at noon: a date is
//! one whole number of fen or half parts, divided once.

use crate::calendar::Calendar;
use crate::months::{self, signed, Year};
use crate::refusal::Refusal;
use crate::units::{Fen, HalfParts, FEN_IN_A_DAY, HALF_PARTS_IN_A_DAY};
use crate::{eclipse, genka, senmyo};

pub struct Moons {
    pub new: f64,
    pub full: f64,
}

pub fn asked(calendar: u64, year: u64, month: u64, leap: bool) -> Result<Moons, Refusal> {
    let year = months::asked_year(calendar, year)?;
    let month = year.month(signed(month), leap)?;
    Ok(moons(year.calendar, month.new_moon))
}

pub fn moons(calendar: Calendar, new_moon: i64) -> Moons {
    match calendar {
        Calendar::Senmyo => Moons {
            new: senmyo_date(senmyo::true_new_moon(new_moon)),
            full: senmyo_date(eclipse::true_full_moon(new_moon)),
        },
        Calendar::Genka => Moons {
            new: genka_date(genka::new_moon(new_moon).in_half_parts()),
            full: genka_date(genka::full_moon(new_moon)),
        },
    }
}

fn senmyo_date(moment: Fen) -> f64 {
    let day = senmyo::day_number(moment.whole_days());
    let date = Fen(day * FEN_IN_A_DAY + moment.of_the_day().0 - FEN_IN_A_DAY / 2);
    date.0 as f64 / FEN_IN_A_DAY as f64
}

fn genka_date(moment: HalfParts) -> f64 {
    let day = genka::day_number(moment.whole_days());
    let of_the_day = moment.of_the_day();
    let date = HalfParts(day * HALF_PARTS_IN_A_DAY + of_the_day.0 - HALF_PARTS_IN_A_DAY / 2);
    date.0 as f64 / HALF_PARTS_IN_A_DAY as f64
}

/// Ten years, evenly spread from the first covered to the last.
pub fn sample(calendar: Calendar) -> Vec<Year> {
    let first = *calendar.years().start();
    let last = *calendar.years().end();
    let numbers: Vec<i64> = (0..=9).map(|at| first + (last - first) * at / 9).collect();
    months::covered_years(calendar)
        .into_iter()
        .filter(|year| numbers.contains(&year.number))
        .collect()
}
