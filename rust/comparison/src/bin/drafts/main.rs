//! Differential tests of drafts: random steps, the library beside the independent side.
//!
//! `drafts --seed S --count N --from I` runs the inputs I to I + N - 1 of the seed. The exit status is 1 after a disagreement and
//! 2 if a call does not come back.

mod compare;
mod damage;
mod entries;
mod families;
mod input;
mod steps;
mod tally;

use hurnavis_comparison::trial::Trial;
use hurnavis_comparison::xorshift::Xorshift;
use input::Input;
use std::process::ExitCode;
use tally::Tally;

/// Of a longer draft only the start is shown.
const SHOWN: usize = 300;

fn main() -> ExitCode {
    let Some(trial) = Trial::from_flags(120_000) else {
        eprintln!("usage: drafts [--seed S] [--count N] [--from I]");
        return ExitCode::FAILURE;
    };
    let mut tally = Tally::default();
    let show = |seed, number| show(&families::draw(&mut Xorshift::new(seed, number)));
    let disagreements = trial.run(show, |number| run(&trial, number, &mut tally));
    tally.print();
    trial.end(tally.in_library, disagreements)
}

/// Runs one input and reports what is wrong with it; true if nothing is.
fn run(trial: &Trial, number: u64, tally: &mut Tally) -> bool {
    let mut random = Xorshift::new(trial.seed, number);
    let input = families::draw(&mut random);
    let compared = compare::input(&input, &mut random, tally);
    if let Err(message) = &compared {
        println!("disagreement: {}: {message}", trial.again(number));
        show(&input);
    }
    compared.is_ok()
}

fn show(input: &Input) {
    let draft = &input.draft;
    let shown = draft.iter().take(SHOWN).map(|byte| format!("{byte:02x}"));
    println!(
        "    draft of {} bytes: {}",
        draft.len(),
        String::from_iter(shown)
    );
    let steps: Vec<String> = input.steps.iter().map(|step| step.to_string()).collect();
    println!("    {}", steps.join(", "));
}
