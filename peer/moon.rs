//! The Moon's correction of a Senmyo moon, and its change in a day.

use crate::rounding::nearest;
use crate::units::{AnomalySeconds, Fen, ANOMALY_SECONDS_IN_A_FEN, FEN_IN_A_DAY};

/// Half the anomalistic period ends in 95 thousandths of a fen, so the place
/// in the period is counted in thousandths.
const THOUSANDTHS: i64 = 1_000;
const PERIOD: i64 = 231_458_190;
const HALF_PERIOD: i64 = PERIOD / 2;
const DAY: i64 = FEN_IN_A_DAY * THOUSANDTHS;

const SEVENTH_DAY_TURN: i64 = 7_465 * THOUSANDTHS;
const SEVENTH_DAY_LOSS: i64 = 7;
const LAST_DAY: i64 = 6_529 * THOUSANDTHS;

/// A day's sum at its start, and its gain (positive) or loss (negative).
/// The seventh day's is its gain up to the turn.
struct Row(i64, i64);

const UPPER: [Row; 14] = [
    Row(0, 830),
    Row(830, 726),
    Row(1556, 606),
    Row(2162, 471),
    Row(2633, 337),
    Row(2970, 202),
    Row(3172, 53),
    Row(3218, -82),
    Row(3136, -224),
    Row(2912, -366),
    Row(2546, -509),
    Row(2037, -643),
    Row(1394, -748),
    Row(646, -646),
];

const LOWER: [Row; 14] = [
    Row(0, 830),
    Row(830, 726),
    Row(1556, 598),
    Row(2154, 464),
    Row(2618, 329),
    Row(2947, 195),
    Row(3142, 53),
    Row(3188, -82),
    Row(3106, -225),
    Row(2881, -366),
    Row(2515, -501),
    Row(2014, -628),
    Row(1386, -740),
    Row(646, -646),
];

/// A day, or one side of the seventh's turn, over which the correction changes
/// evenly: what it is at the start, and its change, both signed.
struct Stretch {
    sum: i64,
    change: i64,
    length: i64,
    passed: i64,
}

pub fn correction(mean_moment: AnomalySeconds) -> Fen {
    let stretch = stretch_holding(mean_moment);
    Fen(nearest(
        stretch.sum * stretch.length + stretch.change * stretch.passed,
        stretch.length,
    ))
}

pub fn daily_change(mean_moment: AnomalySeconds) -> Fen {
    Fen(stretch_holding(mean_moment).change)
}

fn stretch_holding(mean_moment: AnomalySeconds) -> Stretch {
    let thousandths = mean_moment.0 * (THOUSANDTHS / ANOMALY_SECONDS_IN_A_FEN);
    let place = thousandths.rem_euclid(PERIOD);
    if place < HALF_PERIOD {
        stretch_in_half(&UPPER, place)
    } else {
        reversed(stretch_in_half(&LOWER, place - HALF_PERIOD))
    }
}

fn reversed(stretch: Stretch) -> Stretch {
    Stretch {
        sum: -stretch.sum,
        change: -stretch.change,
        ..stretch
    }
}

fn stretch_in_half(rows: &[Row; 14], place_in_half: i64) -> Stretch {
    let day = (place_in_half / DAY) as usize;
    let passed = place_in_half % DAY;
    let Row(sum, change) = rows[day];
    let whole = |length| Stretch {
        sum,
        change,
        length,
        passed,
    };
    match day {
        6 if passed >= SEVENTH_DAY_TURN => Stretch {
            sum: sum + change,
            change: -SEVENTH_DAY_LOSS,
            length: DAY - SEVENTH_DAY_TURN,
            passed: passed - SEVENTH_DAY_TURN,
        },
        6 => whole(SEVENTH_DAY_TURN),
        13 => whole(LAST_DAY),
        _ => whole(DAY),
    }
}
