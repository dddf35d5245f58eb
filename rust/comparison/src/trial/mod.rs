//! What the programs share that try random inputs: their flags and their loop, what is lent, how bytes are damaged, and what came
//! of the calls.
//!
//! Each input depends on the seed and its number alone, so that a disagreement can be run again by itself.

pub mod damage;
pub mod lent;
pub mod outcome;
pub mod outcomes;
mod watch;

use std::process::ExitCode;
use std::time::{Duration, Instant};
use watch::Watch;

/// After so many disagreements the rest would say nothing new.
const ENOUGH: usize = 10;

/// The inputs to run, from the flags `--seed S --count N --from I`: those with the numbers I to I + N - 1.
pub struct Trial {
    pub seed: u64,
    from: u64,
    count: u64,
    started: Instant,
}

impl Trial {
    /// The usual count is for a call without that flag. Nothing, if there are other flags.
    pub fn from_flags(usual: u64) -> Option<Trial> {
        let mut trial = Trial {
            seed: 1,
            from: 0,
            count: usual,
            started: Instant::now(),
        };
        let mut words = std::env::args().skip(1);
        while let Some(flag) = words.next() {
            let value = words.next()?.parse().ok()?;
            match flag.as_str() {
                "--seed" => trial.seed = value,
                "--from" => trial.from = value,
                "--count" => trial.count = value,
                _ => return None,
            }
        }
        Some(trial)
    }

    /// Runs the inputs and answers how many disagree. `one` runs an input, and is true if nothing is wrong with it; `show` prints
    /// the input of a seed and a number, if it does not come back.
    pub fn run(&self, show: fn(u64, u64), mut one: impl FnMut(u64) -> bool) -> usize {
        let watch = Watch::start(self.seed, show);
        let mut disagreements = 0;
        for number in self.from..self.from + self.count {
            watch.begins(number);
            disagreements += !one(number) as usize;
            if disagreements == ENOUGH {
                break;
            }
        }
        disagreements
    }

    /// The flags that run this input again.
    pub fn again(&self, number: u64) -> String {
        again(self.seed, number)
    }

    /// Prints the last line, and says how the program ends.
    pub fn end(&self, in_library: Duration, disagreements: usize) -> ExitCode {
        println!(
            "seed {}, {} inputs in {:.1} s, of which the library {:.1} s: {disagreements} disagreements",
            self.seed,
            self.count,
            self.started.elapsed().as_secs_f64(),
            in_library.as_secs_f64()
        );
        if disagreements == 0 {
            ExitCode::SUCCESS
        } else {
            ExitCode::FAILURE
        }
    }
}

fn again(seed: u64, number: u64) -> String {
    format!("--seed {seed} --from {number} --count 1")
}
