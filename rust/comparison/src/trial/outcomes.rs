//! Outcomes in numbers.

use std::collections::BTreeMap;

/// How often each outcome came.
#[derive(Default)]
pub struct Outcomes {
    counts: BTreeMap<Result<Option<u64>, u32>, usize>,
}

impl Outcomes {
    /// An answer, which may have no name, or the number of a refusal.
    pub fn note(&mut self, outcome: Result<Option<u64>, u32>) {
        *self.counts.entry(outcome).or_insert(0) += 1;
    }

    pub fn print(&self, call: &str) {
        let all: usize = self.counts.values().sum();
        if all == 0 {
            return;
        }
        println!("{call}: {all} calls");
        for (outcome, count) in &self.counts {
            let share = 100.0 * *count as f64 / all as f64;
            let name = match outcome {
                Ok(None) => "answered".into(),
                Ok(Some(answer)) => format!("answer {answer}"),
                Err(number) => format!("refused {number}"),
            };
            println!("    {name:12} {count:8} {share:6.2} %");
        }
    }
}
