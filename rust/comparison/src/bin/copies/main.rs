//! Differential tests of boards whose links have copies: random structures, the library beside the independent side, beside
//! itself on the structure in which every world stands four times, and beside the reading of the base where no link has copies.
//!
//! `copies --seed S --count N --from I` runs the inputs I to I + N - 1 of the seed. The exit status is 1 after a disagreement and
//! 2 if a call does not come back.

mod call;
mod compare;
mod damage;
mod families;
mod fourfold;
mod input;
mod structures;
mod sums;
mod tables;
mod tally;
#[cfg(test)]
mod wrong;

use hurnavis_comparison::show::hex;
use hurnavis_comparison::trial::Trial;
use hurnavis_comparison::xorshift::Xorshift;
use input::Input;
use std::process::ExitCode;
use tally::Tally;

fn main() -> ExitCode {
    let Some(trial) = Trial::from_flags(120_000) else {
        eprintln!("usage: copies [--seed S] [--count N] [--from I]");
        return ExitCode::FAILURE;
    };
    let mut tally = Tally::default();
    let show = |seed, number| show(&families::draw(&mut Xorshift::new(seed, number)));
    let disagreements = trial.run(show, |number| run(&trial, number, &mut tally));
    tally.print();
    trial.end(tally.in_library, disagreements)
}

/// Runs one input and reports what is wrong with it; true if nothing is.
fn run(trial: &Trial, number: u64, tally: &mut Tally) -> bool {
    let mut random = Xorshift::new(trial.seed, number);
    let input = families::draw(&mut random);
    let compared = compare::input(&input, &mut random, tally);
    if let Err(message) = &compared {
        println!("disagreement: {}: {message}", trial.again(number));
        show(&input);
    }
    compared.is_ok()
}

fn show(input: &Input) {
    println!("    {}, {} words lent", input.family, input.lent);
    println!("    table {}", hex(&input.table));
    println!("    structure {}", hex(&input.structure));
}
