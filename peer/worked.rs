//! The figures worked in the rules, and some known besides, such as the number
//! of eclipses, each beside what the peer makes of it.

use crate::calendar::{self, cycle_number, Calendar};
use crate::months::{self, covered, Month, Year};
use crate::units::Fen;
use crate::{eclipse, hours, record, refusal, run, senmyo};
use std::collections::BTreeSet;

const SUN_OF_1522: [i64; 12] = [
    1136, 1483, 1484, 1154, 549, -281, -974, -1406, -1522, -1295, -733, 139,
];
const MOON_OF_1522: [i64; 12] = [
    2835, 3206, 3013, 2278, 1018, -583, -1962, -2833, -3180, -2970, -2223, -973,
];
const RECORD_OF_1522: [u8; 25] = *b"\
    \x01\x00\x01\x01\
    \x02\x00\x02\x05\xF2\
    \x03\x00\x04\x00\x22\xBE\x84\
    \x04\x00\x01\x00\
    \x05\x00\x02\x0D\x4A";

pub struct Figure {
    pub name: String,
    pub worked: i64,
    pub expected: i64,
}

impl Figure {
    pub fn agrees(&self) -> bool {
        self.worked == self.expected
    }
}

fn figure(name: &str, worked: i64, expected: i64) -> Figure {
    Figure {
        name: name.to_string(),
        worked,
        expected,
    }
}

pub fn all() -> Vec<Figure> {
    let mut figures = solstice_before_1522();
    figures.extend(corrections_of_1522());
    figures.extend(advances());
    figures.extend(corrections_of_1413());
    figures.extend(eclipse_of_1522());
    figures.extend(hours_of_1522());
    figures.extend(edges_of_eclipses());
    figures.extend(count_of_eclipses());
    figures.extend(year_643());
    figures.extend(edges_of_the_calendars());
    figures.extend(record_of_1522());
    figures.extend(count_of_records());
    figures.extend(months_of_full_runs());
    figures
}

fn solstice_before_1522() -> Vec<Figure> {
    let solstice = senmyo::solstice_before(1522);
    let cycle = cycle_number(senmyo::day_number(solstice.whole_days()));
    let month_11 = covered(1, 1522).months[0].new_moon - 2;
    let before = solstice.0 - senmyo::mean_new_moon(month_11).0;
    vec![
        figure("1522 solstice, fen", solstice.of_the_day().0, 90),
        figure("1522 solstice, cycle", cycle, 0),
        figure("1522 month 11, mean fen before it", before, 121_258),
    ]
}

fn corrections_of_1522() -> Vec<Figure> {
    let mut figures = Vec::new();
    for (at, month) in covered(1, 1522).months.iter().enumerate() {
        let name = |body| format!("1522 month {}, {body}", month.number);
        let (sun, moon) = corrections_of(month);
        figures.push(figure(&name("Sun"), sun, SUN_OF_1522[at]));
        figures.push(figure(&name("Moon"), moon, MOON_OF_1522[at]));
    }
    figures
}

fn corrections_of_1413() -> Vec<Figure> {
    let (sun, moon) = corrections_of(&covered(1, 1413).months[0]);
    vec![
        figure("1413 month 1, Sun", sun, 1210),
        figure("1413 month 1, Moon", moon, 84),
    ]
}

fn advances() -> Vec<Figure> {
    let year = covered(1, 1522);
    let second = senmyo::true_new_moon(year.months[1].new_moon);
    let fifth = senmyo::true_new_moon(year.months[4].new_moon);
    let moves = |moment| i64::from(senmyo::moves_a_day(moment));
    vec![
        figure("1522 month 2, fen", second.of_the_day().0, 6092),
        figure("1522 month 2 moves", moves(second), 0),
        figure("1522 month 5, fen", fifth.of_the_day().0, 7941),
        figure("1522 month 5 moves", moves(fifth), 1),
        figure("fen 6299 moves", moves(Fen(6299)), 0),
        figure("fen 6300 moves", moves(Fen(6300)), 1),
    ]
}

fn eclipse_of_1522() -> Vec<Figure> {
    let eclipse = eclipse::of_month(covered(1, 1522).months[1].new_moon);
    let [kind, parts, remainder, strong] = eclipse.size.numbers();
    let full_moon = eclipse.full_moon.of_the_day().0;
    vec![
        figure("1522 month 2, full moon's fen", full_moon, 6215),
        figure("1522 month 2, side", eclipse.side.number(), 1),
        figure("1522 month 2, distance", eclipse.distance.0, 2241),
        figure("1522 month 2, kind", kind, 2),
        figure("1522 month 2, parts", parts, 14),
        figure("1522 month 2, remainder", remainder, 412),
        figure("1522 month 2, strong", strong, 1),
    ]
}

fn hours_of_1522() -> Vec<Figure> {
    let Some(hours) = hours::of_month(covered(1, 1522).months[1].new_moon) else {
        unreachable!("the full moon of 1522 month 2 is eclipsed");
    };
    let fen = |time: Fen| time.of_the_day().0;
    vec![
        figure("1522 month 2, length", hours.length.0, 1696),
        figure("1522 month 2, start's fen", fen(hours.start), 5367),
        figure("1522 month 2, middle's fen", fen(hours.middle), 6215),
        figure("1522 month 2, end's fen", fen(hours.end), 7063),
    ]
}

fn edges_of_eclipses() -> Vec<Figure> {
    let numbers = |distance| eclipse::size(Fen(distance)).numbers();
    let kind = |distance| numbers(distance)[0];
    let parts = |distance| numbers(distance)[1];
    let remainder = |distance| numbers(distance)[2];
    let strong = |distance| numbers(distance)[3];
    vec![
        figure("distance 2147, kind", kind(2147), 1),
        figure("distance 2147, parts", parts(2147), 15),
        figure("distance 2147, remainder", remainder(2147), 0),
        figure("distance 2148, kind", kind(2148), 2),
        figure("distance 2148, parts", parts(2148), 14),
        figure("distance 2148, strong", strong(2148), 1),
        figure("distance 9736, kind", kind(9736), 2),
        figure("distance 9736, parts", parts(9736), 0),
        figure("distance 9736, strong", strong(9736), 0),
        figure("distance 9737, kind", kind(9737), 0),
        figure("distance 9737, parts", parts(9737), 0),
        figure("distance 9737, remainder", remainder(9737), 0),
    ]
}

fn count_of_eclipses() -> Vec<Figure> {
    let years = months::covered_years(Calendar::Senmyo);
    let months = years.iter().flat_map(|year| &year.months);
    let count = months
        .filter(|month| eclipse::of_month(month.new_moon).happens())
        .count();
    vec![figure("eclipsed full moons", count as i64, 1_819)]
}

fn year_643() -> Vec<Figure> {
    let year = covered(2, 643);
    let months = year.months.len() as i64;
    let day = year.months[4].first_day + 15;
    vec![
        figure("643 first day", year.first_day(), 1_955_939),
        figure("643 days", year.days(), 383),
        figure("643 months", months, 13),
        figure("643 leap", year.leap_number(), 7),
        figure("643 month 5 day 16", day, 1_956_072),
        figure("643 month 5 day 16, cycle", cycle_number(day), 1),
    ]
}

fn edges_of_the_calendars() -> Vec<Figure> {
    let number = |calendar, year| refusal::number(months::year(calendar, year));
    let day_after = |year: Year| year.first_day() + year.days();
    vec![
        figure("821 refused", number(1, 821), 2),
        figure("822 first day", covered(1, 822).first_day(), 2_021_320),
        figure("1684 day after", day_after(covered(1, 1684)), 2_336_529),
        figure("1685 refused", number(1, 1685), 2),
        figure("444 refused", number(2, 444), 2),
        figure("445 first day", covered(2, 445).first_day(), 1_883_618),
        figure("697 day after", day_after(covered(2, 697)), 1_976_049),
        figure("698 refused", number(2, 698), 2),
    ]
}

fn record_of_1522() -> Vec<Figure> {
    let mut bytes = RECORD_OF_1522.map(|byte| !byte);
    let writing = refusal::number(record::write(1, 1522, &mut bytes));
    let reading = refusal::number(record::read(&RECORD_OF_1522));
    let mut figures = vec![
        figure("record, bytes", record::length() as i64, 25),
        figure("1522 record, writing refused", writing, 0),
        figure("1522 record, reading refused", reading, 0),
    ];
    for (place, expected) in RECORD_OF_1522.into_iter().enumerate() {
        let name = format!("1522 record, byte {place}");
        figures.push(figure(&name, bytes[place].into(), expected.into()));
    }
    figures
}

fn count_of_records() -> Vec<Figure> {
    let years = calendar::ALL.into_iter().flat_map(months::covered_years);
    let records: BTreeSet<Vec<u8>> = years.map(|year| record::of_year(&year)).collect();
    vec![figure("records", records.len() as i64, 863 + 253)]
}

fn months_of_full_runs() -> Vec<Figure> {
    let [senmyo, genka] = calendar::ALL.map(months_of_full_runs_in);
    let most = senmyo.iter().chain(&genka).max().copied().unwrap_or(0);
    let with_most = |counts: Vec<i64>| {
        let with_most = counts.into_iter().filter(|&count| count == most);
        with_most.count() as i64
    };
    vec![
        figure("fourteen years, most months", most, 174),
        figure("Senmyo, runs with most months", with_most(senmyo), 133),
        figure("Genka, runs with most months", with_most(genka), 39),
    ]
}

fn months_of_full_runs_in(calendar: Calendar) -> Vec<i64> {
    let years = months::covered_years(calendar);
    let runs = years.windows(run::MOST_YEARS.into());
    let months = |run: &[Year]| run.iter().map(|year| year.months.len() as i64).sum();
    runs.map(months).collect()
}

/// The Sun's correction and the Moon's, in fen.
fn corrections_of(month: &Month) -> (i64, i64) {
    let mean = senmyo::mean_new_moon(month.new_moon);
    let (sun, moon) = senmyo::corrections(mean.in_byo());
    (sun.0, moon.0)
}
