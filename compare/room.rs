//! The room of which a part is lent to be written, with random bits in it
//! beforehand, and what an answer leaves there, bit by bit.

pub const ROOM: usize = 72;
pub const LENT_FROM: usize = 4;
pub const MOST_LENT: usize = 64;

/// What the room is filled with.
pub type Filling = [u64; ROOM];

/// The number that a call returns, and the bits of every place afterwards.
#[derive(Debug, PartialEq)]
pub struct Answer {
    pub number: u64,
    pub places: Vec<u64>,
}

impl Answer {
    pub fn of_number(number: u64) -> Answer {
        Answer {
            number,
            places: Vec::new(),
        }
    }

    pub fn of_room<T: Place>(number: u64, room: [T; ROOM]) -> Answer {
        Answer {
            number,
            places: room.map(T::bits).to_vec(),
        }
    }
}

/// What a room has places for.
pub trait Place: Copy {
    fn filled(number: u64) -> Self;
    fn bits(self) -> u64;
}

impl Place for u8 {
    fn filled(number: u64) -> u8 {
        number as u8
    }

    fn bits(self) -> u64 {
        self.into()
    }
}

impl Place for u32 {
    fn filled(number: u64) -> u32 {
        number as u32
    }

    fn bits(self) -> u64 {
        self.into()
    }
}

/// Any bits. Where the exponent's lowest two say so they are made a NaN, quiet or
/// signalling with any payload, an infinity, or a zero, each of either sign.
impl Place for f64 {
    fn filled(number: u64) -> f64 {
        let sign = number & (-0.0_f64).to_bits();
        let exponent = f64::INFINITY.to_bits();
        f64::from_bits(match (number >> 52) % 4 {
            0 => number | exponent,
            1 => sign | exponent,
            2 => sign,
            _ => number,
        })
    }

    fn bits(self) -> u64 {
        self.to_bits()
    }
}
