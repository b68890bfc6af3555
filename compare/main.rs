//! Compares the library with the peer, through the calls that it exports: every
//! covered year, day, date, month and record, numbers at the edges, and random
//! and damaged inputs. Another seed for these may be given as the argument.

mod comparison;
mod covered;
mod damaged;
mod edges;
mod expected;
mod generator;
mod library;
mod listing;
mod peers_ways;
mod question;
mod random;
mod room;
#[path = "../bindings/sieveflicker.rs"]
mod sieveflicker;

use comparison::Comparison;
use listing::Listing;
use std::env;
use std::process::ExitCode;

const SEED: u64 = 1522;

fn main() -> ExitCode {
    let words: Vec<String> = env::args().skip(1).collect();
    let seed = match &words[..] {
        [] => Some(SEED),
        [seed] => seed.parse().ok(),
        _ => None,
    };
    match seed {
        Some(seed) => compare(seed),
        None => usage(),
    }
}

fn compare(seed: u64) -> ExitCode {
    println!("seed: {seed}");
    let mut comparison = Comparison::new(seed);
    let listings = Listing::of_each_calendar();
    peers_ways::compare(&mut comparison, &listings);
    covered::compare(&mut comparison, &listings);
    let edges = edges::numbers(&listings);
    edges::compare(&mut comparison, &listings, &edges);
    random::compare(&mut comparison, &listings, &edges);
    damaged::compare(&mut comparison, &listings);
    comparison.require_all_refusals();
    comparison.end_questions("at edges, random or damaged");
    if comparison.end() {
        ExitCode::SUCCESS
    } else {
        ExitCode::FAILURE
    }
}

fn usage() -> ExitCode {
    eprintln!("usage: compare [SEED]");
    ExitCode::from(2)
}
