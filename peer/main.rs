//! The peer's program: prints what the programs are expected to print.

use peer::{figures, lines, listing, months, worked};
use std::env;
use std::process::ExitCode;

fn main() -> ExitCode {
    let words: Vec<String> = env::args_os()
        .skip(1)
        .map(|word| word.to_string_lossy().into_owned())
        .collect();
    let words: Vec<&str> = words.iter().map(String::as_str).collect();
    match words[..] {
        ["year", calendar, year] => print_year(calendar, year),
        ["listing"] => print_listing(),
        ["figures"] => print_figures(),
        ["worked"] => print_worked(),
        _ => usage(),
    }
}

fn print_year(calendar: &str, year: &str) -> ExitCode {
    let (Ok(calendar), Ok(year)) = (calendar.parse(), year.parse()) else {
        return usage();
    };
    match months::year(calendar, year) {
        Ok(year) => print!("{}", lines::year_table(&year)),
        Err(refusal) => print!("{}", lines::refused(refusal)),
    }
    ExitCode::SUCCESS
}

fn print_listing() -> ExitCode {
    print!("{}", listing::all());
    ExitCode::SUCCESS
}

fn print_figures() -> ExitCode {
    print!("{}", figures::all());
    ExitCode::SUCCESS
}

fn print_worked() -> ExitCode {
    let figures = worked::all();
    for figure in &figures {
        print!("{}", lines::figure_line(figure));
    }
    if figures.iter().all(worked::Figure::agrees) {
        ExitCode::SUCCESS
    } else {
        ExitCode::FAILURE
    }
}

fn usage() -> ExitCode {
    eprintln!(
        "usage: peer year CALENDAR YEAR | peer COMMAND\n\
         COMMAND: listing, figures or worked"
    );
    ExitCode::from(2)
}
