//! The refusals of the rules.

/// Why nothing is answered, with the number that says so.
#[derive(Clone, Copy)]
pub enum Refusal {
    NoSuchCalendar = 1,
    YearNotCovered = 2,
    NoSuchMonth = 3,
    NoSuchDay = 4,
    DayNotCovered = 5,
    WrongRecordSize = 6,
    WrongTagOrLength = 7,
    WrongField = 8,
    RunIsFull = 9,
    RunOfOneYear = 10,
    NotARun = 11,
    NotALine = 12,
    EclipseOfGenka = 13,
    NoEclipse = 14,
}

impl Refusal {
    pub fn number(self) -> i64 {
        self as i64
    }
}

/// The number of an answer's refusal, or 0 if it is none.
pub fn number<T>(answer: Result<T, Refusal>) -> i64 {
    answer.err().map_or(0, Refusal::number)
}
