//! Takes the steps of an input and compares everything that document 02's P9 says about them.

use crate::damage;
use crate::input::Input;
use crate::tally::Tally;
use hurnavis::{raw, Fault};
use hurnavis_comparison::independent::draft::{plain, Draft, Step};
use hurnavis_comparison::trial::outcome::{done, same};
use hurnavis_comparison::xorshift::Xorshift;
use std::time::Instant;

/// So many bytes before and behind the draft belong to nobody.
const AROUND: usize = 9;

/// Compares the library with the independent side on the input, after every step. The message says what differs.
pub fn input(input: &Input, random: &mut Xorshift, tally: &mut Tally) -> Result<(), String> {
    let mut draft = Draft::of(&input.draft);
    let around = damage::garbage(random, AROUND);
    let mut lent = [&around, &input.draft[..], &around].concat();
    let family = tally.families.entry(input.family).or_default();
    family.all += 1;
    family.given += draft.history().is_some() as usize;
    family.steps += input.steps.len();
    let mut taken = 0;
    for (at, step) in input.steps.iter().enumerate() {
        taken += one(*step, &mut draft, &mut lent, tally)
            .map_err(|message| format!("step {at}, {step}: {message}"))? as usize;
    }
    tally.families.entry(input.family).or_default().taken += taken;
    Ok(())
}

/// One step. True, if it is taken.
fn one(step: Step, draft: &mut Draft, lent: &mut [u8], tally: &mut Tally) -> Result<bool, String> {
    let before = draft.clone();
    let expected = draft.step(step);
    on_bytes(step, &before, expected, draft)?;
    if let (Some(before), Some(after)) = (before.history(), draft.history()) {
        tally.note_change(step, before, after);
    }
    let mut wanted = lent.to_vec();
    let inner = AROUND..lent.len() - AROUND;
    wanted[inner.clone()].copy_from_slice(draft.bytes());

    let started = Instant::now();
    let status = call(step, &mut lent[inner.clone()]);
    tally.in_library += started.elapsed();

    tally.note(step, done(status));
    same(name(step), done(status), expected.map(|()| 0))?;
    left(lent, &wanted)?;
    table(draft, &lent[inner], tally)?;
    Ok(expected.is_ok())
}

fn name(step: Step) -> &'static str {
    match step {
        Step::New => "draft_new",
        Step::Add(_) => "draft_add",
        Step::Save(_) => "draft_save",
        Step::Back(_) => "draft_back",
    }
}

fn call(step: Step, draft: &mut [u8]) -> u32 {
    match step {
        Step::New => raw::draft_new(draft),
        Step::Add(entry) => raw::draft_add(draft, entry),
        Step::Save(name) => raw::draft_save(draft, name),
        Step::Back(name) => raw::draft_back(draft, name),
    }
}

/// The independent side's other way gives the same.
fn on_bytes(
    step: Step,
    before: &Draft,
    expected: Result<(), Fault>,
    after: &Draft,
) -> Result<(), String> {
    let mut bytes = before.bytes().to_vec();
    if plain::step(&mut bytes, step) == expected && bytes == after.bytes() {
        return Ok(());
    }
    Err("the two ways of the independent side differ".into())
}

/// Every lent byte, and every byte around, is what it has to be.
fn left(lent: &[u8], wanted: &[u8]) -> Result<(), String> {
    match (0..wanted.len()).find(|at| lent[*at] != wanted[*at]) {
        None => Ok(()),
        Some(at) => Err(format!(
            "byte {} of what was lent is {:#04x}, not {:#04x}",
            at as isize - AROUND as isize,
            lent[at],
            wanted[at]
        )),
    }
}

/// The entries of a draft that some steps give are a table that the library accepts, if there are any.
fn table(draft: &Draft, lent: &[u8], tally: &mut Tally) -> Result<(), String> {
    let Some(history) = draft.history() else {
        return Ok(());
    };
    tally.tables += 1;
    let expected = match history.count() {
        0 => Err(Fault::TableLength),
        _ => Ok(0),
    };
    let status = raw::check_table(&lent[..4 * history.count()]);
    same("check_table", done(status), expected)
}
