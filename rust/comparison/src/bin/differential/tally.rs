//! What was compared, in numbers.

use hurnavis_comparison::trial::outcomes::Outcomes;
use std::collections::BTreeMap;
use std::time::{Duration, Instant};

/// How many inputs of a family there were, how many of them the decision calls unsatisfiable, and on how many the
/// independent side gave up at least once.
#[derive(Default)]
pub struct Inputs {
    pub all: usize,
    pub unsatisfiable: usize,
    pub given_up: usize,
}

#[derive(Default)]
pub struct Tally {
    /// The inputs of each family.
    pub families: BTreeMap<&'static str, Inputs>,
    pub work_words: Outcomes,
    pub board: Outcomes,
    pub decide: Outcomes,
    pub mark: Outcomes,
    pub by_decisions: Outcomes,
    /// Answers that both sides gave, and answers on which the independent side gave up.
    pub compared: usize,
    pub given_up: usize,
    /// Structures looked at, entries seen to hold, and pairs seen apart.
    pub structures: usize,
    pub seen_to_hold: usize,
    pub seen_apart: usize,
    /// The time of all library calls together, and of the slowest one since it was last taken.
    pub in_library: Duration,
    pub slowest: Duration,
}

impl Tally {
    /// Runs a call of the library and notes its time.
    pub fn timed<T>(&mut self, call: impl FnOnce() -> T) -> T {
        let started = Instant::now();
        let result = call();
        let took = started.elapsed();
        self.in_library += took;
        self.slowest = self.slowest.max(took);
        result
    }

    pub fn print(&self) {
        println!(
            "inputs by family, unsatisfiable ones, and ones where the independent side gave up:"
        );
        for (family, inputs) in &self.families {
            println!(
                "    {family:16} {:8} {:8} {:8}",
                inputs.all, inputs.unsatisfiable, inputs.given_up
            );
        }
        self.work_words.print("work_words");
        self.board.print("board");
        self.decide.print("decide");
        self.mark.print("mark");
        self.by_decisions.print("mark by three decisions");
        let answers = self.compared + self.given_up;
        let share = 100.0 * self.given_up as f64 / answers.max(1) as f64;
        println!(
            "answers compared: {}, independent side gave up: {} ({share:.2} %)",
            self.compared, self.given_up
        );
        println!(
            "small structures tried: {}, entries seen to hold: {}, pairs seen apart: {}",
            self.structures, self.seen_to_hold, self.seen_apart
        );
    }
}
