//! Senmyo's solstices, mid-terms and new moons. Mid-terms and new moons go by
//! their number from the start of the count of years, where a solstice
//! (mid-term 0) and a mean new moon (new moon 0) fall together.

use crate::moon;
use crate::rounding::floor;
use crate::sun;
use crate::units::{Byo, Fen, FEN_IN_A_DAY};
use std::ops::RangeInclusive;

pub const YEARS: RangeInclusive<i64> = 822..=1684;

pub const DAYS_BEFORE_DAY_NUMBER_ZERO: i64 = 2_580_308_749;
const YEARS_BEFORE_822: i64 = 7_070_138;
pub const YEAR: Fen = Fen(3_068_055);
const MONTH: Fen = Fen(248_057);
const MID_TERM_SPACING: Byo = Byo(YEAR.in_byo().0 / 12);
const ADVANCE_FROM: Fen = Fen(6_300);

/// The Sun and the Moon together put no new moon farther before its mean.
const MOST_BEFORE_MEAN: Fen = Fen(1_526 + 3_195);

fn accumulated_years(year: i64) -> i64 {
    YEARS_BEFORE_822 + (year - 822)
}

pub fn solstice_before(year: i64) -> Fen {
    Fen(YEAR.0 * accumulated_years(year))
}

pub fn rain_water(year: i64) -> i64 {
    12 * accumulated_years(year) + 2
}

/// The solstice is the mid-term of month 11.
pub fn mid_term_number(mid_term: i64) -> i64 {
    (mid_term + 10).rem_euclid(12) + 1
}

pub fn year_of_mid_term(mid_term: i64) -> i64 {
    floor(mid_term - 2, 12) - accumulated_years(0)
}

pub fn mid_term(mid_term: i64) -> Byo {
    Byo(MID_TERM_SPACING.0 * mid_term)
}

pub fn mid_term_day(mid_term: i64) -> i64 {
    day_number(self::mid_term(mid_term).whole_days())
}

pub fn last_mid_term_by(day: i64) -> i64 {
    floor(start_of_day(day + 1).in_byo().0 - 1, MID_TERM_SPACING.0)
}

pub fn mean_new_moon(new_moon: i64) -> Fen {
    Fen(MONTH.0 * new_moon)
}

pub fn true_new_moon(new_moon: i64) -> Fen {
    let mean = mean_new_moon(new_moon);
    let (sun, moon) = corrections(mean.in_byo());
    Fen(mean.0 + sun.0 + moon.0)
}

/// The Sun's correction and the Moon's.
pub fn corrections(mean_moment: Byo) -> (Fen, Fen) {
    let sun = sun::correction(mean_moment);
    let moon = moon::correction(mean_moment.in_anomaly_seconds());
    (sun, moon)
}

pub fn moves_a_day(true_new_moon: Fen) -> bool {
    true_new_moon.of_the_day().0 >= ADVANCE_FROM.0
}

pub fn first_day(new_moon: i64) -> i64 {
    day_number(advanced_day(true_new_moon(new_moon)))
}

/// The day that a new moon counts to, in whole days.
pub fn advanced_day(true_new_moon: Fen) -> i64 {
    true_new_moon.whole_days() + i64::from(moves_a_day(true_new_moon))
}

/// From the fen of the advance on, a new moon's month begins the day after.
pub fn last_new_moon_by(day: i64) -> i64 {
    let begun_before = Fen(start_of_day(day).0 + ADVANCE_FROM.0);
    floor(begun_before.0 + MOST_BEFORE_MEAN.0 - 1, MONTH.0)
}

/// A month back from the mean new moon, the corrections and the advance (under
/// two days together) leave the month's first day before the mid-term's.
pub fn new_moon_before(mid_term: i64) -> i64 {
    floor(self::mid_term(mid_term).0, MONTH.in_byo().0) - 1
}

pub fn day_number(whole_days: i64) -> i64 {
    whole_days - DAYS_BEFORE_DAY_NUMBER_ZERO
}

fn start_of_day(day: i64) -> Fen {
    Fen((day + DAYS_BEFORE_DAY_NUMBER_ZERO) * FEN_IN_A_DAY)
}
