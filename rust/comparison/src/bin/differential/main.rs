//! Differential tests: random inputs, the library beside the independent side.
//!
//! `differential --seed S --count N --from I` runs the inputs I to I + N - 1 of the seed. The exit status is 1 after a
//! disagreement and 2 if a call does not come back.

mod compare;
mod damage;
mod families;
mod formula;
mod input;
mod rewrite;
mod tally;

use hurnavis_comparison::show::hex;
use hurnavis_comparison::trial::Trial;
use hurnavis_comparison::xorshift::Xorshift;
use input::Input;
use std::process::ExitCode;
use std::time::Duration;
use tally::Tally;

/// A call of the library that is slower is reported.
const SLOW: Duration = Duration::from_secs(1);

fn main() -> ExitCode {
    let Some(trial) = Trial::from_flags(120_000) else {
        eprintln!("usage: differential [--seed S] [--count N] [--from I]");
        return ExitCode::FAILURE;
    };
    let mut tally = Tally::default();
    let show = |seed, number| show(&families::draw(&mut Xorshift::new(seed, number)));
    let disagreements = trial.run(show, |number| run(&trial, number, &mut tally));
    tally.print();
    trial.end(tally.in_library, disagreements)
}

/// Runs one input and reports what is wrong with it; true if nothing is.
fn run(trial: &Trial, number: u64, tally: &mut Tally) -> bool {
    let mut random = Xorshift::new(trial.seed, number);
    let input = families::draw(&mut random);
    let compared = compare::input(&input, &mut random, tally);
    let slowest = std::mem::take(&mut tally.slowest);
    if slowest > SLOW {
        println!("slow: {} has a call of {slowest:.1?}", trial.again(number));
        show(&input);
    }
    if let Err(message) = &compared {
        println!("disagreement: {}: {message}", trial.again(number));
        show(&input);
    }
    compared.is_ok()
}

fn show(input: &Input) {
    println!("    table {}", hex(&input.table));
    println!("    structure {}", hex(&input.structure));
    println!(
        "    model {} answer {} words {} {} {}",
        input.model, input.answer, input.board_words, input.decide_words, input.mark_words
    );
}
