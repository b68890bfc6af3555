//! The calendars' units of time, each with a type of its own.

use crate::rounding::floor;

pub const FEN_IN_A_DAY: i64 = 8_400;
pub const FEN_IN_A_KE: i64 = 84;
pub const BYO_IN_A_FEN: i64 = 8;
pub const BYO_IN_A_DAY: i64 = FEN_IN_A_DAY * BYO_IN_A_FEN;
pub const ANOMALY_SECONDS_IN_A_FEN: i64 = 100;
pub const PARTS_IN_A_DAY: i64 = 752;
pub const HALF_PARTS_IN_A_DAY: i64 = Parts(PARTS_IN_A_DAY).in_half_parts().0;

#[derive(Clone, Copy)]
pub struct Fen(pub i64);

#[derive(Clone, Copy)]
pub struct Byo(pub i64);

#[derive(Clone, Copy)]
pub struct AnomalySeconds(pub i64);

#[derive(Clone, Copy)]
pub struct Parts(pub i64);

#[derive(Clone, Copy)]
pub struct HalfParts(pub i64);

impl Fen {
    pub const fn in_byo(self) -> Byo {
        Byo(self.0 * BYO_IN_A_FEN)
    }

    pub fn whole_days(self) -> i64 {
        floor(self.0, FEN_IN_A_DAY)
    }

    pub fn of_the_day(self) -> Fen {
        Fen(self.0.rem_euclid(FEN_IN_A_DAY))
    }

    pub fn whole_ke(self) -> i64 {
        floor(self.0, FEN_IN_A_KE)
    }

    pub fn over_whole_ke(self) -> Fen {
        Fen(self.0.rem_euclid(FEN_IN_A_KE))
    }
}

impl Byo {
    pub fn whole_days(self) -> i64 {
        floor(self.0, BYO_IN_A_DAY)
    }

    pub fn whole_fen(self) -> Fen {
        Fen(floor(self.0, BYO_IN_A_FEN))
    }

    /// Nothing is dropped from a whole or a half fen.
    pub fn in_anomaly_seconds(self) -> AnomalySeconds {
        AnomalySeconds(floor(self.0 * ANOMALY_SECONDS_IN_A_FEN, BYO_IN_A_FEN))
    }
}

impl Parts {
    pub const fn in_half_parts(self) -> HalfParts {
        HalfParts(2 * self.0)
    }

    pub fn whole_days(self) -> i64 {
        floor(self.0, PARTS_IN_A_DAY)
    }
}

impl HalfParts {
    pub fn whole_days(self) -> i64 {
        floor(self.0, HALF_PARTS_IN_A_DAY)
    }

    pub fn of_the_day(self) -> HalfParts {
        HalfParts(self.0.rem_euclid(HALF_PARTS_IN_A_DAY))
    }
}
