//! What the program `check_listing` prints: a heading and its lines for each
//! section, one behind the other.

use crate::calendar::{self, Calendar};
use crate::{instants, lines, months, records, replies, runs};

pub fn all() -> String {
    [
        section("replies", replies::all()),
        section("years", years()),
        section("eclipses", eclipses()),
        section("instants", instant_lines()),
        section("records", records::all()),
        section("runs", runs::all()),
    ]
    .concat()
}

fn section(heading: &str, lines: String) -> String {
    format!("{heading}\n{lines}")
}

fn years() -> String {
    let years = calendar::ALL.into_iter().flat_map(months::covered_years);
    years.map(|year| lines::year_line(&year)).collect()
}

fn eclipses() -> String {
    let years = months::covered_years(Calendar::Senmyo).into_iter();
    years.map(|year| lines::eclipse_lines(&year)).collect()
}

fn instant_lines() -> String {
    let years = calendar::ALL.into_iter().flat_map(instants::sample);
    years.map(|year| lines::instant_lines(&year)).collect()
}
