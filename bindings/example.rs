//! How a Rust program asks the library: the day of a date and the date of a day,
//! a refusal, a year, an eclipse and its hours, a month's moons and a record.

mod sieveflicker;

use sieveflicker::{Calendar, Date, Grade, Refusal, Time};

fn first_day_of(year: u32, month: u32, leap: bool) -> Date {
    Date {
        year,
        month,
        leap,
        day: 1,
    }
}

fn show_date(day: u32) -> Result<(), Refusal> {
    let date = sieveflicker::date(Calendar::Senmyo, day)?;
    let leap = if date.leap { "leap " } else { "" };
    println!(
        "day {day} is Senmyo {}, {leap}month {}, day {}",
        date.year, date.month, date.day
    );
    Ok(())
}

fn show_days_and_dates() -> Result<(), Refusal> {
    let day = sieveflicker::day(Calendar::Senmyo, first_day_of(1522, 1, false))?;
    println!("Senmyo 1522, month 1, day 1 is day {day}");
    show_date(day + 30)?;

    let day_of_leap_month = sieveflicker::day(Calendar::Senmyo, first_day_of(1523, 3, true))?;
    println!("Senmyo 1523, leap month 3, day 1 is day {day_of_leap_month}");
    show_date(day_of_leap_month + 28)
}

fn show_refusal() {
    if let Err(refusal) = sieveflicker::day(Calendar::Senmyo, first_day_of(1522, 3, true)) {
        println!("Senmyo 1522, leap month 3, day 1: {refusal}");
    }
}

fn show_year() -> Result<(), Refusal> {
    let year = sieveflicker::year(Calendar::Genka, 643)?;
    let count = year.months.len();
    println!("Genka 643 has {} days in {count} months", year.days);
    for month in &year.months {
        let leap = if month.leap { "leap " } else { "" };
        println!(
            "{leap}month {} has {} days from day {}",
            month.number, month.length, month.first_day
        );
    }
    Ok(())
}

fn show_eclipse() -> Result<(), Refusal> {
    let moon = sieveflicker::eclipse(Calendar::Senmyo, 1522, 2, false)?;
    println!(
        "the full moon of Senmyo 1522, month 2 is on day {} at {} fen",
        moon.day, moon.fen
    );
    if let Grade::Partial {
        parts,
        remainder,
        strong,
    } = moon.grade
    {
        let word = if strong { "strong" } else { "weak" };
        println!("eclipsed by {parts} parts and {remainder}, {word}");
    }
    Ok(())
}

fn show_time(name: &str, time: Time, after: &str) {
    let Time { day, fen, ke } = time;
    print!("{name} on day {day}, fen {fen}, ke {ke}{after}");
}

fn show_hours() -> Result<(), Refusal> {
    let hours = sieveflicker::hours(Calendar::Senmyo, 1522, 2, false)?;
    let length = hours.length;
    println!(
        "for {} fen, which is {} ke and {} fen",
        length.fen, length.whole_ke, length.fen_over
    );
    show_time("start", hours.start, "; ");
    show_time("middle", hours.middle, "; ");
    show_time("end", hours.end, "\n");
    Ok(())
}

fn show_moons() -> Result<(), Refusal> {
    let moons = sieveflicker::moons(Calendar::Genka, 643, 5, false)?;
    println!(
        "the moons of Genka 643, month 5: new {:.5}, full {:.5}",
        moons.new, moons.full
    );
    Ok(())
}

fn show_record() -> Result<(), Refusal> {
    let record = sieveflicker::write_record(Calendar::Senmyo, 1522)?;
    print!("the record of Senmyo 1522:");
    for byte in record {
        print!(" {byte:02X}");
    }
    println!();

    let read = sieveflicker::read_record(&record)?;
    println!("it reads as year {} from day {}", read.year, read.first_day);
    Ok(())
}

fn main() -> Result<(), Refusal> {
    show_days_and_dates()?;
    show_refusal();
    show_year()?;
    show_eclipse()?;
    show_hours()?;
    show_moons()?;
    show_record()
}
