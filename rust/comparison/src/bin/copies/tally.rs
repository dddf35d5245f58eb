//! What was compared, in numbers.

use hurnavis_comparison::trial::outcomes::Outcomes;
use std::collections::BTreeMap;
use std::time::Duration;

/// How many inputs of a family there were, how many of them were accepted, and how many boards of these are others without the
/// copies.
#[derive(Default)]
pub struct Inputs {
    pub all: usize,
    pub accepted: usize,
    pub changed: usize,
}

#[derive(Default)]
pub struct Tally {
    pub families: BTreeMap<&'static str, Inputs>,
    /// All calls: each input, the same without copies, and the structure in which every world stands four times.
    pub board: Outcomes,
    pub four_times: usize,
    /// Bits that were known from the sum of the copies.
    pub known: usize,
    pub in_library: Duration,
}

impl Tally {
    pub fn print(&self) {
        println!("inputs by family, those that were accepted, and those of them whose board is another without the copies:");
        for (family, inputs) in &self.families {
            println!(
                "    {family:16} {:8} {:8} {:8}",
                inputs.all, inputs.accepted, inputs.changed
            );
        }
        self.board.print("board");
        println!(
            "structures in which every world stands four times: {}, bits known from a sum: {}",
            self.four_times, self.known
        );
    }
}
