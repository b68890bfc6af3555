//! Senmyo's full moons and their eclipses.

use crate::calendar::{self, Calendar};
use crate::months::{self, signed};
use crate::refusal::Refusal;
use crate::rounding::nearest;
use crate::senmyo;
use crate::units::{Byo, Fen, BYO_IN_A_FEN};

const HALF_A_FEN: Byo = Byo(BYO_IN_A_FEN / 2);
const NEW_TO_FULL_MOON: Byo = Byo(Fen(124_028).in_byo().0 + HALF_A_FEN.0);

/// The node's period ends in 6512 ten-thousandths of a fen, so a place in it
/// is counted in these.
#[derive(Clone, Copy)]
pub struct TenThousandths(pub i64);

const TEN_THOUSANDTHS_IN_A_FEN: i64 = 10_000;
const TEN_THOUSANDTHS_IN_A_BYO: i64 = TEN_THOUSANDTHS_IN_A_FEN / BYO_IN_A_FEN;
const PERIOD: TenThousandths = TenThousandths(2_285_826_512);
const HALF_PERIOD: TenThousandths = TenThousandths(PERIOD.0 / 2);

/// So many fen of the Moon's correction move the place by so many.
const MOON_CORRECTION: i64 = 2_573;
const PLACE_MOVED: i64 = 202;

const NO_ECLIPSE_FROM: Fen = Fen(9_737);
const TOTAL_UP_TO: Fen = Fen(2_147);
const ONE_PART: Fen = Fen(506);
const STRONG_FROM: Fen = Fen(253);
const PARTS_OF_A_TOTAL_ONE: i64 = 15;

#[derive(Clone, Copy)]
pub enum Side {
    Yang = 0,
    Yin = 1,
}

pub enum Size {
    None,
    Total,
    Partial {
        parts: i64,
        remainder: Fen,
        strong: bool,
    },
}

pub struct Eclipse {
    pub full_moon: Fen,
    pub side: Side,
    pub distance: Fen,
    pub size: Size,
}

impl Side {
    pub fn number(self) -> i64 {
        self as i64
    }
}

impl Size {
    /// Kind, parts, remainder, and whether strong.
    pub fn numbers(&self) -> [i64; 4] {
        match *self {
            Size::None => [0, 0, 0, 0],
            Size::Total => [1, PARTS_OF_A_TOTAL_ONE, 0, 0],
            Size::Partial {
                parts,
                remainder,
                strong,
            } => [2, parts, remainder.0, i64::from(strong)],
        }
    }

    /// The parts to the nearest, a strong remainder counting as one more; none
    /// where there is no eclipse.
    pub fn rounded_parts(&self) -> Option<i64> {
        match *self {
            Size::None => None,
            Size::Total => Some(PARTS_OF_A_TOTAL_ONE),
            Size::Partial { parts, strong, .. } => Some(parts + i64::from(strong)),
        }
    }
}

impl Eclipse {
    pub fn happens(&self) -> bool {
        !matches!(self.size, Size::None)
    }

    /// The full moon's day and fen, side and distance, and the size's numbers.
    pub fn numbers(&self) -> [i64; 8] {
        let [kind, parts, remainder, strong] = self.size.numbers();
        [
            senmyo::day_number(self.full_moon.whole_days()),
            self.full_moon.of_the_day().0,
            self.side.number(),
            self.distance.0,
            kind,
            parts,
            remainder,
            strong,
        ]
    }
}

pub fn asked(calendar: u64, year: u64, month: u64, leap: bool) -> Result<Eclipse, Refusal> {
    asked_new_moon(calendar, year, month, leap).map(of_month)
}

/// The new moon of a month of Senmyo.
pub fn asked_new_moon(calendar: u64, year: u64, month: u64, leap: bool) -> Result<i64, Refusal> {
    if let Calendar::Genka = calendar::numbered(signed(calendar))? {
        return Err(Refusal::EclipseOfGenka);
    }
    let year = months::asked_year(calendar, year)?;
    let month = year.month(signed(month), leap)?;
    Ok(month.new_moon)
}

pub fn of_month(new_moon: i64) -> Eclipse {
    let mean = mean_full_moon(new_moon);
    let (sun, moon) = senmyo::corrections(mean);
    let (side, distance) = node_of(node_place(mean, sun, moon));
    Eclipse {
        full_moon: true_full_moon(new_moon),
        side,
        distance,
        size: size(distance),
    }
}

pub fn mean_full_moon(new_moon: i64) -> Byo {
    Byo(senmyo::mean_new_moon(new_moon).in_byo().0 + NEW_TO_FULL_MOON.0)
}

/// The corrections are taken with the mean moment's half fen, dropped last.
pub fn true_full_moon(new_moon: i64) -> Fen {
    let mean = mean_full_moon(new_moon);
    let (sun, moon) = senmyo::corrections(mean);
    Byo(mean.0 + sun.in_byo().0 + moon.in_byo().0).whole_fen()
}

pub fn node_place(mean_moment: Byo, sun: Fen, moon: Fen) -> TenThousandths {
    let mean_place = (mean_moment.0 * TEN_THOUSANDTHS_IN_A_BYO).rem_euclid(PERIOD.0);
    let by_moon = nearest(moon.0 * PLACE_MOVED, MOON_CORRECTION);
    let place = mean_place + (sun.0 + by_moon) * TEN_THOUSANDTHS_IN_A_FEN;
    TenThousandths(place.rem_euclid(PERIOD.0))
}

pub fn node_of(place: TenThousandths) -> (Side, Fen) {
    let (side, place_in_half) = side_and_place_in_half(place);
    (side, distance(place_in_half))
}

fn side_and_place_in_half(place: TenThousandths) -> (Side, TenThousandths) {
    if place.0 > HALF_PERIOD.0 {
        (Side::Yin, TenThousandths(place.0 - HALF_PERIOD.0))
    } else {
        (Side::Yang, place)
    }
}

fn distance(place_in_half: TenThousandths) -> Fen {
    let lesser = place_in_half.0.min(HALF_PERIOD.0 - place_in_half.0);
    Fen(nearest(lesser, TEN_THOUSANDTHS_IN_A_FEN))
}

pub fn size(distance: Fen) -> Size {
    if distance.0 >= NO_ECLIPSE_FROM.0 {
        return Size::None;
    }
    if distance.0 <= TOTAL_UP_TO.0 {
        return Size::Total;
    }
    let within = NO_ECLIPSE_FROM.0 - distance.0;
    let remainder = Fen(within % ONE_PART.0);
    Size::Partial {
        parts: within / ONE_PART.0,
        remainder,
        strong: remainder.0 >= STRONG_FROM.0,
    }
}
