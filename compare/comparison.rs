//! Asks questions, counts what agrees and what differs, and prints the counts.

use crate::generator::Generator;
use crate::question::Question;
use crate::room::ROOM;
use crate::{expected, library};
use std::fmt::Debug;
use std::mem;

const MOST_SHOWN: u64 = 5;
const LAST_REFUSAL: usize = 14;

/// The refusals that a call of the library can meet.
const REFUSALS: [usize; 10] = [1, 2, 3, 4, 5, 6, 7, 8, 13, 14];

pub struct Comparison {
    pub generator: Generator,
    total: Count,
    of_part: Count,
    /// How many questions were answered, at 0, and how many met each refusal.
    met: [u64; LAST_REFUSAL + 1],
}

#[derive(Default)]
struct Count {
    agreeing: u64,
    differing: u64,
    answered: u64,
}

impl Comparison {
    pub fn new(seed: u64) -> Comparison {
        Comparison {
            generator: Generator::new(seed),
            total: Count::default(),
            of_part: Count::default(),
            met: [0; LAST_REFUSAL + 1],
        }
    }

    /// Asks both, with random bits where the library is lent room to write.
    pub fn ask(&mut self, question: Question) {
        let filling = [(); ROOM].map(|()| self.generator.bits());
        let (expected, refusal) = expected::answer(&question, &filling);
        let given = library::answer(&question, &filling);
        self.met[refusal as usize] += 1;
        self.of_part.answered += u64::from(refusal == 0);
        self.compare(&question, &given, &expected);
    }

    pub fn ask_many(&mut self, times: usize, question: impl Fn(&mut Generator) -> Question) {
        for _ in 0..times {
            let question = question(&mut self.generator);
            self.ask(question);
        }
    }

    pub fn compare<T: PartialEq + Debug>(&mut self, about: &impl Debug, given: &T, expected: &T) {
        if given == expected {
            self.of_part.agreeing += 1;
            return;
        }
        self.of_part.differing += 1;
        if self.of_part.differing <= MOST_SHOWN {
            println!("{about:?}: {given:?}, and should be {expected:?}");
        }
    }

    pub fn end_part(&mut self, name: &str) {
        let Count {
            agreeing,
            differing,
            answered,
        } = mem::take(&mut self.of_part);
        let compared = agreeing + differing;
        match answered {
            0 => println!("{name}: {compared} compared, {differing} differ"),
            _ => println!("{name}: {compared} compared, {answered} answered, {differing} differ"),
        }
        self.total.agreeing += agreeing;
        self.total.differing += differing;
    }

    /// Prints how many were answered and refused since this was last asked.
    pub fn end_questions(&mut self, name: &str) {
        let refused: Vec<String> = (1..=LAST_REFUSAL)
            .filter(|&refusal| self.met[refusal] > 0)
            .map(|refusal| format!("{} with {refusal}", self.met[refusal]))
            .collect();
        let refused = refused.join(", ");
        println!("{name}: {} answered; refused {refused}", self.met[0]);
        self.met = [0; LAST_REFUSAL + 1];
    }

    pub fn require_all_refusals(&mut self) {
        for refusal in REFUSALS {
            let met = self.met[refusal] > 0;
            self.compare(&format!("refusal {refusal} was met"), &met, &true);
        }
        self.end_part("refusals met");
    }

    /// Prints the last line. Whether nothing differed.
    pub fn end(self) -> bool {
        println!(
            "{} passed, {} failed",
            self.total.agreeing, self.total.differing
        );
        self.total.differing == 0
    }
}
