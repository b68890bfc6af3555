//! Measures the library in one run beside two plain ways to the same answers:
//! the peer, which works each out by the rules, and a search in an array of all
//! months, which the peer worked out before the clock starts.

mod array;
mod inputs;
mod measure;
mod questions;
mod runs;
mod sides;
#[path = "../bindings/sieveflicker.rs"]
mod sieveflicker;

use array::Array;
use inputs::Random;
use measure::compare;
use peer::calendar::{self, Calendar};
use questions::{Day, EclipseOf, HoursOf, MonthsOf, MoonsOf, RecordOf};
use runs::Change;
use sides::{Library, Peer, Sides};

fn main() {
    let sides = Sides {
        library: Library,
        peer: Peer,
        array: Array::worked_out(),
    };
    let mut random = Random::seeded();
    measure::print_head(inputs::COUNT, inputs::COUNT_ON_RUNS);
    let days = inputs::days(&mut random);
    compare_days(&sides, &days);
    compare_dates(&sides, &days);
    compare_years(&sides, &mut random);
    compare_moons(&sides, &mut random);
    compare_runs(&sides, &mut random);
}

fn compare_days(sides: &Sides, days: &[(&str, Vec<Day>)]) {
    for (name, days) in days {
        compare(sides, &format!("day to date, {name}"), days);
    }
}

fn compare_dates(sides: &Sides, days: &[(&str, Vec<Day>)]) {
    for (name, days) in days {
        let dates = inputs::dates(&sides.array, days);
        compare(sides, &format!("date to day, {name}"), &dates);
    }
}

fn compare_years(sides: &Sides, random: &mut Random) {
    let years = inputs::years(random);
    let months_of: Vec<MonthsOf> = years.iter().copied().map(MonthsOf).collect();
    let record_of: Vec<RecordOf> = years.iter().copied().map(RecordOf).collect();
    let records = inputs::records(&sides.array, &years);
    compare(sides, "a year's months", &months_of);
    compare(sides, "a record written", &record_of);
    compare(sides, "a record read", &records);
}

fn compare_moons(sides: &Sides, random: &mut Random) {
    let of_senmyo = inputs::months_of(random, &[Calendar::Senmyo]);
    let eclipses: Vec<EclipseOf> = of_senmyo.into_iter().map(EclipseOf).collect();
    compare(sides, "an eclipse", &eclipses);
    let eclipsed = inputs::eclipsed_months(random);
    let hours: Vec<HoursOf> = eclipsed.into_iter().map(HoursOf).collect();
    compare(sides, "the hours of an eclipse", &hours);
    let of_both = inputs::months_of(random, &calendar::ALL);
    let moons: Vec<MoonsOf> = of_both.into_iter().map(MoonsOf).collect();
    compare(sides, "both moons of a month", &moons);
}

fn compare_runs(sides: &Sides, random: &mut Random) {
    let full = inputs::runs(14);
    let days = inputs::days_in_runs(random, &full);
    compare(sides, "day to date in a run of 14 years", &days);
    let shorter = inputs::runs(13);
    let extended = inputs::changes(random, &shorter, Change::Extend);
    compare(sides, "a run of 13 years extended", &extended);
    let dropped = inputs::changes(random, &full, Change::Drop);
    compare(sides, "oldest dropped of 14 years", &dropped);
}
