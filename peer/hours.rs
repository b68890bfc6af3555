//! The hours of Senmyo's lunar eclipses: how long one lasts, and the day and the
//! ke of its start, middle and end.

use crate::eclipse;
use crate::moon;
use crate::refusal::Refusal;
use crate::rounding::{floor, nearest};
use crate::senmyo;
use crate::units::{Fen, FEN_IN_A_DAY};

const LENGTH_OF_A_PART: Fen = Fen(112);

pub struct Hours {
    pub length: Fen,
    pub start: Fen,
    pub middle: Fen,
    pub end: Fen,
}

impl Hours {
    /// The length, its whole ke and the fen over them; then day, fen of the day
    /// and ke of the start, the middle and the end.
    pub fn numbers(&self) -> [i64; 12] {
        let [start_day, start_fen, start_ke] = time_numbers(self.start);
        let [middle_day, middle_fen, middle_ke] = time_numbers(self.middle);
        let [end_day, end_fen, end_ke] = time_numbers(self.end);
        [
            self.length.0,
            self.length.whole_ke(),
            self.length.over_whole_ke().0,
            start_day,
            start_fen,
            start_ke,
            middle_day,
            middle_fen,
            middle_ke,
            end_day,
            end_fen,
            end_ke,
        ]
    }
}

fn time_numbers(time: Fen) -> [i64; 3] {
    let of_the_day = time.of_the_day();
    [
        senmyo::day_number(time.whole_days()),
        of_the_day.0,
        of_the_day.whole_ke(),
    ]
}

pub fn asked(calendar: u64, year: u64, month: u64, leap: bool) -> Result<Hours, Refusal> {
    let new_moon = eclipse::asked_new_moon(calendar, year, month, leap)?;
    of_month(new_moon).ok_or(Refusal::NoEclipse)
}

/// The hours of a month's eclipse, if there is one.
pub fn of_month(new_moon: i64) -> Option<Hours> {
    let eclipse = eclipse::of_month(new_moon);
    let parts = eclipse.size.rounded_parts()?;
    let mean = eclipse::mean_full_moon(new_moon);
    let length = length(parts, moon::daily_change(mean.in_anomaly_seconds()));
    let middle = eclipse.full_moon;
    let start = Fen(middle.0 - floor(length.0, 2));
    Some(Hours {
        length,
        start,
        middle,
        end: Fen(start.0 + length.0),
    })
}

pub fn length(parts: i64, daily_change: Fen) -> Fen {
    let of_parts = parts * LENGTH_OF_A_PART.0;
    Fen(of_parts + nearest(of_parts * daily_change.0, FEN_IN_A_DAY))
}
