//! Genka's mid-terms, new moons and full moons. Mid-terms and new moons go by
//! their number from the origin, where a Rain Water (mid-term 0) and a new moon
//! (new moon 0) fall together; a full moon goes by the new moon before it.

use crate::rounding::floor;
use crate::units::{HalfParts, Parts, PARTS_IN_A_DAY};
use std::ops::RangeInclusive;

pub const YEARS: RangeInclusive<i64> = 445..=697;

pub const DAYS_BEFORE_DAY_NUMBER_ZERO: i64 = 200_089;
const YEARS_BEFORE_YEAR_ZERO: i64 = 5_260;

/// In so many days stand so many mid-terms.
const MID_TERMS_SPAN: i64 = 222_070;
const MID_TERMS: i64 = 7_296;

const MONTH: Parts = Parts(22_207);

pub fn rain_water(year: i64) -> i64 {
    12 * (year + YEARS_BEFORE_YEAR_ZERO)
}

pub fn mid_term_number(mid_term: i64) -> i64 {
    mid_term.rem_euclid(12) + 1
}

pub fn year_of_mid_term(mid_term: i64) -> i64 {
    floor(mid_term, 12) - YEARS_BEFORE_YEAR_ZERO
}

pub fn mid_term_day(mid_term: i64) -> i64 {
    day_number(mid_term_whole_days(mid_term))
}

pub fn mid_term_whole_days(mid_term: i64) -> i64 {
    floor(MID_TERMS_SPAN * mid_term, MID_TERMS)
}

pub fn last_mid_term_by(day: i64) -> i64 {
    floor(whole_days(day + 1) * MID_TERMS - 1, MID_TERMS_SPAN)
}

pub fn first_day(new_moon: i64) -> i64 {
    day_number(self::new_moon(new_moon).whole_days())
}

pub fn new_moon(new_moon: i64) -> Parts {
    Parts(MONTH.0 * new_moon)
}

pub fn full_moon(new_moon: i64) -> HalfParts {
    HalfParts(self::new_moon(new_moon).in_half_parts().0 + MONTH.in_half_parts().0 / 2)
}

pub fn last_new_moon_by(day: i64) -> i64 {
    floor(whole_days(day + 1) * PARTS_IN_A_DAY - 1, MONTH.0)
}

pub fn new_moon_before(mid_term: i64) -> i64 {
    floor(
        MID_TERMS_SPAN * mid_term * PARTS_IN_A_DAY,
        MID_TERMS * MONTH.0,
    ) - 1
}

pub fn day_number(whole_days: i64) -> i64 {
    whole_days - DAYS_BEFORE_DAY_NUMBER_ZERO
}

fn whole_days(day_number: i64) -> i64 {
    day_number + DAYS_BEFORE_DAY_NUMBER_ZERO
}
