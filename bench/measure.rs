//! The clock, and the table that it fills.

use crate::questions::Question;
use crate::sides::{Side, Sides};
use std::hint::black_box;
use std::time::Instant;

const ROUNDS: usize = 25;

struct Round {
    nanoseconds_per_call: f64,
    sum_of_answers: u64,
}

pub fn print_head(calls: usize, on_runs: usize) {
    println!(
        "nanoseconds per call, the best of {ROUNDS} rounds of {calls} calls, on runs of {on_runs}:"
    );
    println!(
        "{:<34}{:>10}{:>10}{:>10}{:>15}{:>15}",
        "", "library", "peer", "array", "library/peer", "library/array"
    );
}

/// Puts all questions to each side in turn, round after round, so that a busy
/// machine hurts all sides alike, and prints a line of the table.
pub fn compare<Q: Question>(sides: &Sides, asked: &str, questions: &[Q]) {
    let mut best = [f64::INFINITY; 3];
    for _ in 0..ROUNDS {
        let times = put_all_to_each(sides, asked, questions);
        best = [0, 1, 2].map(|side| times[side].min(best[side]));
    }
    let [library, peer, array] = best;
    let to_peer = library / peer;
    let to_array = library / array;
    println!("{asked:<34}{library:>10.1}{peer:>10.1}{array:>10.1}{to_peer:>15.2}{to_array:>15.2}");
}

/// The nanoseconds per call of each side.
fn put_all_to_each<Q: Question>(sides: &Sides, asked: &str, questions: &[Q]) -> [f64; 3] {
    let rounds = [
        put_all(questions, &sides.library),
        put_all(questions, &sides.peer),
        put_all(questions, &sides.array),
    ];
    let [library, peer, array] = rounds.each_ref().map(|round| round.sum_of_answers);
    assert!(
        library == peer && library == array,
        "{asked}: the sides give different answers"
    );
    rounds.map(|round| round.nanoseconds_per_call)
}

fn put_all<Q: Question, S: Side>(questions: &[Q], side: &S) -> Round {
    let start = Instant::now();
    let mut sum: u64 = 0;
    for question in black_box(questions) {
        sum = sum.wrapping_add(question.put_to(side));
    }
    let sum_of_answers = black_box(sum);
    let nanoseconds = start.elapsed().as_nanos() as f64;
    Round {
        nanoseconds_per_call: nanoseconds / questions.len() as f64,
        sum_of_answers,
    }
}
