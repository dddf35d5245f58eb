//! One random input: a table, a structure, and how many words are lent.

use hurnavis::Writer;
use hurnavis_comparison::layout::{self, Record};
use hurnavis_comparison::xorshift::Xorshift;

pub struct Input {
    pub family: &'static str,
    pub table: Vec<u8>,
    pub structure: Vec<u8>,
    pub lent: usize,
    /// What is known without evaluating anything.
    pub known: Vec<Known>,
}

/// That an entry holds at a world, or that it does not.
#[derive(Clone, Copy, Debug)]
pub struct Known {
    pub entry: usize,
    pub world: u8,
    pub holds: bool,
}

impl Input {
    /// Nothing is known. A word is lent for each entry, sometimes some more, and seldom too few.
    pub fn new(
        random: &mut Xorshift,
        family: &'static str,
        table: &Writer,
        records: &[Record],
    ) -> Input {
        Input {
            family,
            table: table.bytes(),
            structure: layout::pack_structure(records),
            lent: lent(random, table.count()),
            known: Vec::new(),
        }
    }
}

/// The words lent to a table of so many entries.
pub fn lent(random: &mut Xorshift, entries: usize) -> usize {
    match random.below(20) {
        0 => random.pick(&[entries.saturating_sub(1), entries / 2, 0]),
        1..=12 => entries,
        _ => entries + random.pick(&[1, 3, 9]),
    }
}
