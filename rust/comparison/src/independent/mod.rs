//! The same calls once more, written from documents 01, 02 and 001 alone, by another method, to compare the library with.
//!
//! - [`refusals`]: document 01's refusals in their order.
//! - [`truth`]: definition 2.1 on drawn structures, with the copies of their links.
//! - [`realisable`] and [`counts`]: which truth values entries can have together at one world. This is no tableau: no
//!   formula is taken apart in search of a world. The sets of all possible truth values are computed, the deeper
//!   entries' first, and a relation's counts are found by adding up successors.
//! - [`drawn`]: small structures, to look for worlds by trying.
//! - [`text`]: typed descriptions.
//! - [`draft`]: drafts to return to.
//!
//! Where its limits are reached, the independent side says `None` and does not guess.

pub mod counts;
pub mod draft;
pub mod drawn;
pub mod realisable;
pub mod refusals;
pub mod text;
pub mod truth;

use crate::layout::{self, Entry};
use hurnavis::{Fault, Mark};
use realisable::{Limits, Realisable};

/// The words that a mark of the two entries needs, and a decision with one entry twice, or the refusal.
pub fn work_words(table: &[u8], model: usize, answer: usize) -> Result<usize, Fault> {
    let entries = refusals::table(table)?;
    needed(&entries, &[model, answer])
}

/// What the board call has to write, or its refusal.
pub fn board(table: &[u8], structure: &[u8], words: usize) -> Result<Vec<u64>, Fault> {
    let entries = refusals::table(table)?;
    let structure = refusals::structure(structure)?;
    if words < entries.len() {
        return Err(Fault::Space);
    }
    Ok(truth::board(&entries, &structure))
}

/// What the decision has to answer, or its refusal.
pub fn decide(
    table: &[u8],
    entry: usize,
    words: usize,
    limits: Limits,
) -> Result<Option<bool>, Fault> {
    let entries = refusals::table(table)?;
    lent(&entries, &[entry], words)?;
    Ok(satisfiable(&entries, entry, limits))
}

/// What the mark has to answer, or its refusal.
pub fn mark(
    table: &[u8],
    model: usize,
    answer: usize,
    words: usize,
    limits: Limits,
) -> Result<Option<Mark>, Fault> {
    let entries = refusals::table(table)?;
    lent(&entries, &[model, answer], words)?;
    Ok(compared(&entries, model, answer, limits))
}

/// Whether the entry of a checked table is satisfiable, if the limits allow to say it.
pub fn satisfiable(entries: &[Entry], entry: usize, limits: Limits) -> Option<bool> {
    let mut realisable = Realisable::new(entries, limits);
    let pairs = realisable.pairs(entry, entry)?;
    Some(pairs.contains(&(true, true)))
}

/// The mark of two entries of a checked table, if the limits allow to say it.
pub fn compared(entries: &[Entry], model: usize, answer: usize, limits: Limits) -> Option<Mark> {
    let mut realisable = Realisable::new(entries, limits);
    let pairs = realisable.pairs(model, answer)?;
    let answer_holds = pairs.iter().any(|(_, answer)| *answer);
    if !answer_holds {
        return Some(Mark::Impossible);
    }
    let model_alone = pairs.contains(&(true, false));
    let answer_alone = pairs.contains(&(false, true));
    Some(match (model_alone, answer_alone) {
        (false, false) => Mark::Equal,
        (true, false) => Mark::Narrower,
        (false, true) => Mark::Wider,
        (true, true) => Mark::Crossing,
    })
}

/// Refusals 9 and 10 of a decision or a mark.
fn lent(entries: &[Entry], asked: &[usize], words: usize) -> Result<(), Fault> {
    if words < needed(entries, asked)? {
        return Err(Fault::Space);
    }
    Ok(())
}

/// The words needed for the deepest of the entries asked about; refusal 9 where there is no such entry.
fn needed(entries: &[Entry], asked: &[usize]) -> Result<usize, Fault> {
    let depths = layout::depths(entries);
    if asked.iter().any(|e| *e >= entries.len()) {
        return Err(Fault::EntryNumber);
    }
    let deepest = asked.iter().map(|e| depths[*e]).max().unwrap_or(0);
    Ok(layout::work_words(entries, deepest))
}
