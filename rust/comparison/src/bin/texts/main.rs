//! Differential tests of the reader: random texts, the library beside the independent side.
//!
//! `texts --seed S --count N --from I` runs the inputs I to I + N - 1 of the seed. The exit status is 1 after a disagreement and
//! 2 if a call does not come back.

mod borders;
mod compare;
mod damage;
mod families;
mod input;
mod tally;
mod tree;

use hurnavis_comparison::trial::Trial;
use hurnavis_comparison::xorshift::Xorshift;
use input::Input;
use std::process::ExitCode;
use tally::Tally;

/// Of a longer text only the start and the end are shown.
const SHOWN: usize = 600;

fn main() -> ExitCode {
    let Some(trial) = Trial::from_flags(120_000) else {
        eprintln!("usage: texts [--seed S] [--count N] [--from I]");
        return ExitCode::FAILURE;
    };
    let mut tally = Tally::default();
    let show = |seed, number| show(&families::draw(&mut Xorshift::new(seed, number)));
    let disagreements = trial.run(show, |number| run(&trial, number, &mut tally));
    tally.print();
    trial.end(tally.in_library, disagreements)
}

/// Runs one input and reports what is wrong with it; true if nothing is.
fn run(trial: &Trial, number: u64, tally: &mut Tally) -> bool {
    let mut random = Xorshift::new(trial.seed, number);
    let input = families::draw(&mut random);
    let compared = compare::input(&input, &mut random, tally);
    if let Err(message) = &compared {
        println!("disagreement: {}: {message}", trial.again(number));
        show(&input);
    }
    compared.is_ok()
}

fn show(input: &Input) {
    let (text, length) = (&input.text, input.text.len());
    println!("    {length} bytes of text, {} lent", input.lent);
    if length <= SHOWN {
        return println!("    {}", text.escape_ascii());
    }
    let (start, end) = (&text[..SHOWN / 2], &text[length - SHOWN / 2..]);
    println!("    {} .. {}", start.escape_ascii(), end.escape_ascii());
}
