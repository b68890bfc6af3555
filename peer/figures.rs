//! The figures and edges of the rules but for the eight worked cases, as the
//! program `check_figures` prints them: a line has what it is about, a colon,
//! and the numbers.

use crate::calendar::{cycle_number, Calendar};
use crate::dates::{self, Date};
use crate::eclipse::{Size, TenThousandths};
use crate::lines::{self, hexadecimal, line};
use crate::months::{self, covered};
use crate::refusal::{self, Refusal};
use crate::rounding::{floor, nearest};
use crate::run::{self, Run};
use crate::units::{AnomalySeconds, Byo, Fen, BYO_IN_A_FEN};
use crate::{eclipse, genka, hours, moon, record, replies, senmyo, sun};

/// Every 25 fen of a year, and every 5 fen of the Moon's period.
const MOMENTS_OF_SUN: i64 = 122_723;
const FEN_BETWEEN_MOMENTS_OF_SUN: i64 = 25;
const MOMENTS_OF_MOON: i64 = 46_292;
const ANOMALY_SECONDS_BETWEEN_MOMENTS_OF_MOON: i64 = 500;

const INPUTS: [&[u8]; 5] = [
    b"1 1522\n",
    b"000000001 000000821\n",
    b"3 1522\n1 1522\n",
    b"1 1522",
    b"1 0000001522\n",
];

/// Eclipses by year, month and whether leap, and what the hours of each show.
const ECLIPSES: [(&str, u64, u64, bool); 12] = [
    ("the worked case", 1522, 2, false),
    ("lower row 14, total, from the day before", 918, 1, false),
    ("upper row 14, total, to the day after", 1038, 2, false),
    ("upper row 7 before 7465", 1636, 7, false),
    ("upper row 7 past 7465, to the day after", 1333, 3, false),
    ("lower row 7 before 7465, 14 parts strong", 1465, 9, false),
    ("lower row 7 past 7465", 1171, 6, false),
    ("14 parts weak, from the day before", 890, 8, false),
    ("13 parts weak, to 19 fen of the day after", 1066, 2, false),
    ("the longest, to the day after", 1667, 10, false),
    ("0 parts strong, the least length above 0", 1365, 2, false),
    ("0 parts weak, no length", 1300, 7, true),
];

pub fn all() -> String {
    [
        edges(),
        cycles(),
        roundings(),
        units(),
        senmyo_means(),
        genka_means(),
        extents(),
        rows(),
        daily_changes(),
        advance(),
        errors(),
        grades(),
        nodes(),
        hours_of_eclipses(),
        record_of_1522(),
        lengths(),
        damage(),
        runs(),
        freed(),
        refused_opening(),
        look_ups(),
        dates_refused(),
        days_refused(),
        eclipses_refused(),
        hours_refused(),
        program(),
    ]
    .concat()
}

fn figure_line(about: &str, numbers: &[i64]) -> String {
    format!("{about}: {}", line(numbers))
}

fn edges() -> String {
    let refused = |calendar, year| refusal::number(months::year(calendar, year));
    [
        figure_line(
            "Senmyo, first and last year, whole days of day 0",
            &edges_of(Calendar::Senmyo),
        ),
        figure_line("Genka", &edges_of(Calendar::Genka)),
        figure_line(
            "Senmyo, 821, 822, 1684 and 1685",
            &[821, 822, 1684, 1685].map(|year| refused(1, year)),
        ),
        figure_line(
            "Genka, 444, 445, 697 and 698",
            &[444, 445, 697, 698].map(|year| refused(2, year)),
        ),
    ]
    .concat()
}

fn edges_of(calendar: Calendar) -> [i64; 3] {
    let years = calendar.years();
    [
        *years.start(),
        *years.end(),
        calendar.days_before_day_number_zero(),
    ]
}

fn cycles() -> String {
    figure_line("cycle of days 0, 10 and 11", &[0, 10, 11].map(cycle_number))
}

fn roundings() -> String {
    [
        figure_line(
            "3/2, 1/2, -1/2 and -3/2, rounded",
            &[3, 1, -1, -3].map(|halves| nearest(halves, 2)),
        ),
        figure_line(
            "3/2 and -3/2, floors",
            &[3, -3].map(|halves| floor(halves, 2)),
        ),
    ]
    .concat()
}

fn units() -> String {
    let last_of_day = Fen(8399);
    let first_of_next = Fen(8400);
    [
        figure_line(
            "a fen in byo, 8 byo in anomaly seconds, 15 byo in fen",
            &[
                Fen(1).in_byo().0,
                Byo(8).in_anomaly_seconds().0,
                Byo(15).whole_fen().0,
            ],
        ),
        figure_line(
            "8399 and 8400 fen, days and fen of the day",
            &[
                last_of_day.whole_days(),
                last_of_day.of_the_day().0,
                first_of_next.whole_days(),
                first_of_next.of_the_day().0,
            ],
        ),
    ]
    .concat()
}

fn senmyo_means() -> String {
    let mid_terms = [1, 12].map(|mid_term| fen_and_byo(senmyo::mid_term(mid_term)));
    let [full_moon_fen, full_moon_byo] = fen_and_byo(eclipse::mean_full_moon(0));
    [
        figure_line(
            "Senmyo, mid-terms 1 and 12, in fen and byo",
            &mid_terms.concat(),
        ),
        figure_line(
            "mean new moon 1, mean full moon 0, in fen and byo",
            &[senmyo::mean_new_moon(1).0, full_moon_fen, full_moon_byo],
        ),
        figure_line(
            "number of the mid-term that is Rain Water of 822",
            &[senmyo::rain_water(822)],
        ),
    ]
    .concat()
}

fn fen_and_byo(moment: Byo) -> [i64; 2] {
    [moment.whole_fen().0, moment.0 % BYO_IN_A_FEN]
}

fn genka_means() -> String {
    [
        figure_line(
            "Genka, new moon 1 in parts, full moon 0 in half parts, day of new moon 752",
            &[
                genka::new_moon(1).0,
                genka::full_moon(0).0,
                genka::new_moon(752).whole_days(),
            ],
        ),
        figure_line(
            "Genka, day of mid-term 7296, number of the mid-term that is Rain Water of 445",
            &[genka::mid_term_whole_days(7296), genka::rain_water(445)],
        ),
    ]
    .concat()
}

fn extents() -> String {
    let of_sun = (0..MOMENTS_OF_SUN)
        .map(|moment| Fen(moment * FEN_BETWEEN_MOMENTS_OF_SUN))
        .map(|moment| sun::correction(moment.in_byo()));
    let of_moon = (0..MOMENTS_OF_MOON)
        .map(|moment| AnomalySeconds(moment * ANOMALY_SECONDS_BETWEEN_MOMENTS_OF_MOON))
        .map(moon::correction);
    [
        figure_line(
            "Sun, least, most, all that it adds and all that it takes off, \
             every 25 fen of a year",
            &extent(of_sun),
        ),
        figure_line(
            "Moon, the same, every 5 fen of its period",
            &extent(of_moon),
        ),
    ]
    .concat()
}

/// The least and the most, none counting as 0, and the sums of what adds and of
/// what takes off.
fn extent(corrections: impl Iterator<Item = Fen>) -> [i64; 4] {
    let [mut least, mut most, mut added, mut taken] = [0; 4];
    for Fen(correction) in corrections {
        least = least.min(correction);
        most = most.max(correction);
        added += correction.max(0);
        taken += (-correction).max(0);
    }
    [least, most, added, taken]
}

/// The lower rows' starts are told half an anomaly second late, for they stand
/// at no whole one.
fn rows() -> String {
    let correction = |seconds| moon::correction(AnomalySeconds(seconds)).0;
    [
        figure_line(
            "Moon, upper row 7 at 0 and 7465 fen, row 8 at 0",
            &[5_040_000, 5_786_500, 5_880_000].map(correction),
        ),
        figure_line(
            "Moon, lower rows 11 to 14 at 0 fen",
            &[19_972_910, 20_812_910, 21_652_910, 22_492_910].map(correction),
        ),
    ]
    .concat()
}

/// Lower row 7 has 7465 fen between two anomaly seconds.
fn daily_changes() -> String {
    let moments = [
        5_786_499, 5_786_500, 10_920_000, 17_359_409, 17_359_410, 22_492_910,
    ];
    figure_line(
        "Moon's change in a day, upper row 7 just before and at 7465 fen, row 14 at 0, then lower row 7 on both sides of 7465, row 14 at 0",
        &moments.map(|seconds| moon::daily_change(AnomalySeconds(seconds)).0),
    )
}

fn advance() -> String {
    figure_line(
        "a new moon at fen 6299 and 6300 of day 0, its day",
        &[6299, 6300].map(|fen| senmyo::advanced_day(Fen(fen))),
    )
}

/// Dates that a copyist's errors would change.
fn errors() -> String {
    figure_line(
        "dates of days 2063282, 2296308, 2025571 and, in Genka, 1883766",
        &[
            date_or_refusal(dates::date_of(1, 2_063_282)),
            date_or_refusal(dates::date_of(1, 2_296_308)),
            date_or_refusal(dates::date_of(1, 2_025_571)),
            date_or_refusal(dates::date_of(2, 1_883_766)),
        ]
        .concat(),
    )
}

/// Year, month, leap 0 or 1, and day; or a refusal's number alone.
fn date_or_refusal(answer: Result<Date, Refusal>) -> Vec<i64> {
    match answer {
        Ok((year, month, leap, day)) => {
            vec![year as i64, month as i64, i64::from(leap), day as i64]
        }
        Err(refusal) => vec![refusal.number()],
    }
}

fn day_or_refusal(answer: Result<u64, Refusal>) -> i64 {
    answer.map_or_else(Refusal::number, |day| day as i64)
}

fn grades() -> String {
    [2147, 2148, 8978, 8979, 9736, 9737]
        .map(grade_line)
        .concat()
}

fn grade_line(distance: i64) -> String {
    let about = format!("eclipse at {distance}");
    match eclipse::size(Fen(distance)) {
        Size::None => format!("{about}: none\n"),
        Size::Total => format!("{about}: total\n"),
        Size::Partial {
            parts,
            remainder,
            strong,
        } => figure_line(&about, &[parts, remainder.0, i64::from(strong)]),
    }
}

fn nodes() -> String {
    let places = [
        4_999,
        5_000,
        571_456_628,
        1_142_908_256,
        1_142_913_256,
        1_142_913_257,
        2_285_821_512,
    ];
    let place = |mean, sun, moon| eclipse::node_place(Byo(mean), Fen(sun), Fen(moon)).0;
    [
        figure_line(
            "side (0 yang, 1 yin) and distance at seven places near the nodes and midway",
            &places.map(side_and_distance).concat(),
        ),
        figure_line(
            "node places in ten-thousandths of a fen, at 1828662 byo, and at 0 with Sun 1 and -1, with Moon 3217, 3216 and -7",
            &[
                place(1_828_662, 0, 0),
                place(0, 1, 0),
                place(0, -1, 0),
                place(0, 0, 3217),
                place(0, 0, 3216),
                place(0, 0, -7),
            ],
        ),
    ]
    .concat()
}

fn side_and_distance(place: i64) -> [i64; 2] {
    let (side, distance) = eclipse::node_of(TenThousandths(place));
    [side.number(), distance.0]
}

fn hours_of_eclipses() -> String {
    ECLIPSES.map(hours_line).concat()
}

fn hours_line((shown, year, month, leap): (&str, u64, u64, bool)) -> String {
    let Ok(hours) = hours::asked(1, year, month, leap) else {
        unreachable!("only hours of eclipses are asked for");
    };
    let leap = if leap { "leap " } else { "" };
    let about = format!("hours, {shown}, {year} {leap}month {month}");
    figure_line(&about, &hours.numbers())
}

fn record_of_1522() -> String {
    let mut bytes = [0; 25];
    let writing = refusal::number(record::write(1, 1522, &mut bytes));
    let reading = refusal::number(record::read(&bytes));
    let bytes = hexadecimal(&bytes);
    format!(
        "record of 1522, and the refusals in writing and reading it: {bytes} {writing} {reading}\n"
    )
}

fn lengths() -> String {
    let mut short = [0; 24];
    let mut long = [0; 26];
    figure_line(
        "24 bytes to write calendar 3 in, and to read; 26 bytes to write 1522 in, and to read",
        &[
            refusal::number(record::write(3, 0, &mut short)),
            refusal::number(record::read(&short)),
            refusal::number(record::write(1, 1522, &mut long)),
            refusal::number(record::read(&long)),
        ],
    )
}

/// The record of 1522 with one field after the other changed.
fn damage() -> String {
    let mut numbers = Vec::new();
    let mut bytes = record::of_year(&covered(1, 1522));
    for (place, byte) in [(15, 133), (7, 9), (3, 3), (20, 6)] {
        bytes[place] = byte;
        numbers.push(refusal::number(record::read(&bytes)));
    }
    figure_line(
        "another first day, then a year not covered, calendar 3 and another tag too",
        &numbers,
    )
}

fn runs() -> String {
    let full = run_from(1523, 13);
    let extending = |run: &Run| run::extend(run).0;
    [
        figure_line(
            "1523 to 1536, years and months",
            &[full.years.into(), full.count.into()],
        ),
        figure_line(
            "extending it, 1671 to 1684, 1684, and a run of zeros",
            &[
                extending(&full),
                extending(&run_from(1671, 13)),
                extending(&run_from(1684, 0)),
                extending(&run_from(0, 0)),
            ],
        ),
        figure_line(
            "dropping from it, from 1522, and from a run of zeros, refusal, first year, years and months left",
            &[
                dropping(&full),
                dropping(&run_from(1522, 0)),
                dropping(&run_from(0, 0)),
            ]
            .concat(),
        ),
    ]
    .concat()
}

/// The first days in three places of what a drop from a full run leaves.
fn freed() -> String {
    let (_, left) = run::drop_oldest(&run_from(1523, 13));
    let first_days = [160, 161, 173].map(|place: usize| left.places[place].first_day.into());
    figure_line(
        "then the first days in places 160, 161 and 173",
        &first_days,
    )
}

fn refused_opening() -> String {
    let (refusal, zeros) = run::open(1, 1685);
    figure_line(
        "opening at 1685, refusal, calendar, first year, years and months",
        &[
            refusal,
            zeros.calendar.into(),
            zeros.first_year.into(),
            zeros.years.into(),
            zeros.count.into(),
        ],
    )
}

/// A run from a year on, with so many years more.
fn run_from(year: u64, more: usize) -> Run {
    let (_, opened) = run::open(1, year);
    (0..more).fold(opened, |run, _| run::extend(&run).1)
}

fn dropping(run: &Run) -> [i64; 4] {
    let (refusal, left) = run::drop_oldest(run);
    [
        refusal,
        left.first_year.into(),
        left.years.into(),
        left.count.into(),
    ]
}

fn look_ups() -> String {
    let run = run_from(1522, 1);
    let days = [
        (1524, 13, true, 0),
        (1523, 13, true, 0),
        (1523, 3, true, 0),
        (1523, 3, true, 1),
    ]
    .map(|date| day_or_refusal(run::day_of(&run, date)));
    let dates =
        [2_277_733, 2_276_995, 2_277_734].map(|day| date_or_refusal(run::date_of(&run, day)));
    [
        figure_line(
            "in 1522 and 1523: 1524, leap month 13, day 0, then with year 1523, month 3 and day 1 put right in turn",
            &days,
        ),
        figure_line(
            "its last day, the day before its first, the day after its last",
            &dates.concat(),
        ),
    ]
    .concat()
}

fn dates_refused() -> String {
    let number = |calendar, date| day_or_refusal(dates::day_of(calendar, date));
    [
        figure_line(
            "calendar 3, year 0, month 0, day 0, then with the first of them put right, and so on",
            &[
                number(3, (0, 0, false, 0)),
                number(1, (0, 0, false, 0)),
                number(1, (1522, 0, false, 0)),
                number(1, (1522, 1, false, 0)),
                number(1, (1522, 1, false, 29)),
            ],
        ),
        figure_line(
            "1522 month 1 day 30, month 13, leap month 1",
            &[
                number(1, (1522, 1, false, 30)),
                number(1, (1522, 13, false, 1)),
                number(1, (1522, 1, true, 1)),
            ],
        ),
    ]
    .concat()
}

fn days_refused() -> String {
    let numbers = [
        (3, 0),
        (1, 2_021_319),
        (1, 2_021_320),
        (1, 2_336_528),
        (1, 2_336_529),
        (2, 1_883_617),
        (2, 1_883_618),
        (2, 1_976_048),
        (2, 1_976_049),
    ]
    .map(|(calendar, day)| date_or_refusal(dates::date_of(calendar, day)));
    figure_line(
        "day 0 in calendar 3; in each calendar the day before the first covered, the first, the last, the day after",
        &numbers.concat(),
    )
}

fn eclipses_refused() -> String {
    let numbers = [
        (3, 0, 0),
        (2, 0, 0),
        (1, 821, 0),
        (1, 1522, 13),
        (1, 1522, 2),
    ]
    .map(|(calendar, year, month)| refusal::number(eclipse::asked(calendar, year, month, false)));
    figure_line(
        "eclipses, calendar 3, Genka, 821, 1522 month 13 and month 2",
        &numbers,
    )
}

fn hours_refused() -> String {
    let numbers = [
        (3, 0, 0),
        (2, 0, 0),
        (1, 821, 0),
        (1, 1522, 13),
        (1, 1522, 1),
        (1, 1522, 2),
    ]
    .map(|(calendar, year, month)| refusal::number(hours::asked(calendar, year, month, false)));
    figure_line(
        "hours, calendar 3, Genka, 821, 1522 month 13, month 1 and month 2",
        &numbers,
    )
}

fn program() -> String {
    let of_1522 = covered(1, 1522);
    [
        INPUTS.map(replies::answer).concat(),
        lines::eclipse_lines(&covered(1, 824)),
        lines::eclipse_lines(&of_1522),
        lines::instant_lines(&of_1522),
        lines::instant_lines(&covered(2, 643)),
    ]
    .concat()
}
