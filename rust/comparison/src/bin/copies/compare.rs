//! Runs the board call on an input and compares everything that document 02's P7 says about it.

use crate::call::{self, Board};
use crate::fourfold::{fourfold, spread};
use crate::input::{Input, Known};
use crate::tally::Tally;
use hurnavis::Fault;
use hurnavis_comparison::before;
use hurnavis_comparison::independent::{self, refusals};
use hurnavis_comparison::xorshift::Xorshift;

/// Compares the library with the independent side, with the base and with itself. The message says what differs.
pub fn input(input: &Input, random: &mut Xorshift, tally: &mut Tally) -> Result<(), String> {
    let expected = independent::board(&input.table, &input.structure, input.lent);
    call::board(input, &input.structure, &expected, random, tally)?;
    let without = without_copies(input, random, tally)?;

    let family = tally.families.entry(input.family).or_default();
    family.all += 1;
    let Ok(words) = expected else {
        return Ok(());
    };
    family.accepted += 1;
    family.changed += (without.as_ref() != Ok(&words)) as usize;
    tally.known += input.known.len();
    known(&input.known, &words)?;
    four_times(input, &words, random, tally)
}

/// The same structure without its copies reads as before P7, refusals included. Answers what comes of it.
fn without_copies(
    input: &Input,
    random: &mut Xorshift,
    tally: &mut Tally,
) -> Result<Board, String> {
    let mut structure = input.structure.clone();
    let records = structure.chunks_exact_mut(3);
    for link in records.filter(|record| record[0] >> 6 == 2) {
        link[2] &= !3;
    }
    let expected = base(&input.table, &structure, input.lent);
    call::board(input, &structure, &expected, random, tally)
        .map_err(|message| format!("without copies, beside the base: {message}"))?;
    Ok(expected)
}

/// What the base's call came to. P7 changes nothing in tables.
fn base(table: &[u8], structure: &[u8], lent: usize) -> Board {
    let entries = refusals::table(table)?.len();
    before::check(structure)?;
    if lent < entries {
        return Err(Fault::Space);
    }
    let mut words = vec![0; entries];
    before::board(table, structure, &mut words);
    Ok(words)
}

/// Where every world stands four times, the library has each bit of these words four times, and so has the base.
fn four_times(
    input: &Input,
    words: &[u64],
    random: &mut Xorshift,
    tally: &mut Tally,
) -> Result<(), String> {
    let Some(structure) = fourfold(&input.structure) else {
        return Ok(());
    };
    tally.four_times += 1;
    let expected = Ok(words.iter().map(|word| spread(*word)).collect());
    if base(&input.table, &structure, input.lent) != expected {
        return Err("the base has other words where every world stands four times".into());
    }
    call::board(input, &structure, &expected, random, tally)
        .map_err(|message| format!("where every world stands four times: {message}"))
}

/// What was known from writing the structure down.
fn known(known: &[Known], words: &[u64]) -> Result<(), String> {
    let wrong = |known: &&Known| (words[known.entry] >> known.world & 1 == 1) != known.holds;
    match known.iter().find(wrong) {
        None => Ok(()),
        Some(known) => Err(format!("by its sum it should be {known:?}")),
    }
}
