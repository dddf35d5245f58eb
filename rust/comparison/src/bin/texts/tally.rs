//! What was compared, in numbers.

use hurnavis_comparison::trial::outcomes::Outcomes;
use std::collections::BTreeMap;
use std::time::Duration;

/// How often each outcome came, and how many texts were read, printed and read again.
#[derive(Default)]
pub struct Tally {
    /// For each family the texts and those of them that were read.
    pub families: BTreeMap<&'static str, (usize, usize)>,
    pub read_text: Outcomes,
    pub round_trips: usize,
    /// The longest text, and the longest that was read.
    pub longest: usize,
    pub longest_read: usize,
    pub in_library: Duration,
}

impl Tally {
    pub fn print(&self) {
        println!("texts by family, and those of them that were read:");
        for (family, (all, read)) in &self.families {
            println!("    {family:16} {all:8} {read:8}");
        }
        self.read_text.print("read_text");
        println!(
            "read, printed and read again: {}, longest text: {} bytes, longest that was read: {}",
            self.round_trips, self.longest, self.longest_read
        );
    }
}
