//! The Sun's correction of a Senmyo moon.

use crate::rounding::nearest;
use crate::senmyo;
use crate::units::{Byo, Fen, BYO_IN_A_DAY, FEN_IN_A_DAY};

const YEAR: Byo = senmyo::YEAR.in_byo();
const PLACES: i64 = 10_000;

/// A true term: its span, and its numbers in ten-thousandths of a fen.
struct Term {
    span: Byo,
    rate: i64,
    first: i64,
    sum: i64,
}

const fn term(days: i64, fen: i64, byo: i64, rate: i64, first: i64, sum_in_fen: i64) -> Term {
    Term {
        span: Byo(Fen(days * FEN_IN_A_DAY + fen).in_byo().0 + byo),
        rate,
        first,
        sum: sum_in_fen * PLACES,
    }
}

/// From the winter solstice, the thirteenth being the summer solstice. The
/// second's first is not the one printed in the old manuals: it is mended.
const TERMS: [Term; 24] = [
    term(14, 4235, 5, -3695, 334_511, 0),
    term(14, 5235, 5, -3606, 280_316, 449),
    term(14, 6235, 5, -3519, 226_998, 823),
    term(14, 7235, 5, -4068, 178_923, 1122),
    term(15, 35, 5, -3998, 117_966, 1346),
    term(15, 1235, 5, -3998, 57_986, 1481),
    term(15, 2435, 5, -3779, -2_433, 1526),
    term(15, 3635, 5, -3634, -61_254, 1481),
    term(15, 4835, 5, -2987, -122_048, 1346),
    term(15, 5835, 5, -2919, -169_060, 1122),
    term(15, 6835, 5, -2854, -215_362, 823),
    term(15, 7835, 5, -2854, -260_498, 449),
    term(15, 7835, 5, 2854, -303_119, 0),
    term(15, 6835, 5, 2919, -258_126, -449),
    term(15, 5835, 5, 2987, -212_454, -823),
    term(15, 4835, 5, 3634, -170_296, -1122),
    term(15, 3635, 5, 3779, -114_744, -1346),
    term(15, 2435, 5, 3779, -56_429, -1481),
    term(15, 1235, 5, 3998, 1_432, -1526),
    term(15, 35, 5, 4068, 61_488, -1481),
    term(14, 7235, 5, 3519, 126_336, -1346),
    term(14, 6235, 5, 3606, 178_043, -1122),
    term(14, 5235, 5, 3695, 230_590, -823),
    term(14, 4235, 5, 3695, 284_618, -449),
];

pub fn correction(mean_moment: Byo) -> Fen {
    let (term, into_term) = term_holding(Byo(mean_moment.0.rem_euclid(YEAR.0)));
    let days = into_term.0 / BYO_IN_A_DAY;
    let rest_of_day = into_term.0 % BYO_IN_A_DAY;
    let at_day_start = term.sum + term.first * days + term.rate * (days * (days - 1) / 2);
    let change_that_day = term.first + term.rate * days;
    Fen(nearest(
        at_day_start * BYO_IN_A_DAY + change_that_day * rest_of_day,
        PLACES * BYO_IN_A_DAY,
    ))
}

fn term_holding(since_solstice: Byo) -> (&'static Term, Byo) {
    let mut left = since_solstice.0;
    for term in &TERMS {
        if left < term.span.0 {
            return (term, Byo(left));
        }
        left -= term.span.0;
    }
    unreachable!("the spans fill the year")
}
