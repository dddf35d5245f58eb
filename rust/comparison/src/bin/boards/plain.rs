//! A plain evaluator, as a yardstick: each record is read once, each relation's masks are made
//! once. The input is not checked.

use hurnavis_comparison::layout::{self, Entry};

/// The worlds of each fact, and of each relation the worlds that each world leads to. The rows stay
/// from call to call: one that a table does not ask for may be of an earlier structure.
pub struct Plain {
    facts: [u64; 256],
    links: Box<[[u64; 64]; 256]>,
}

impl Plain {
    pub fn new() -> Plain {
        Plain {
            facts: [0; 256],
            links: Box::new([[0; 64]; 256]),
        }
    }

    /// Fills the words of an accepted table and structure.
    pub fn board(&mut self, table: &[u8], structure: &[u8], words: &mut [u64]) {
        let worlds = (structure[0] & 63) as usize + 1;
        self.clear(table, worlds);
        self.read(&structure[3..]);
        for (i, e) in entries(table).enumerate() {
            let word = self.word(e, worlds, words);
            words[i] = word;
        }
    }

    /// Clears the rows that the table asks for.
    fn clear(&mut self, table: &[u8], worlds: usize) {
        let mut cleared = [false; 256];
        for e in entries(table) {
            let name = e.name as usize;
            if e.kind == layout::FACT {
                self.facts[name] = 0;
            } else if e.counts() && !cleared[name] {
                self.links[name][..worlds].fill(0);
                cleared[name] = true;
            }
        }
    }

    /// Adds the facts and links, which are all records behind the header.
    fn read(&mut self, records: &[u8]) {
        for r in records.chunks_exact(3) {
            let (world, name, to) = (r[0] & 63, r[1] as usize, r[2] >> 2);
            if r[0] >> 6 == 1 {
                self.facts[name] |= 1 << world;
            } else {
                self.links[name][world as usize] |= 1 << to;
            }
        }
    }

    /// The word of an entry, where the words before it are there already.
    fn word(&self, e: Entry, worlds: usize, words: &[u64]) -> u64 {
        let all = u64::MAX >> (64 - worlds);
        let first = words[e.first as usize];
        let to = &self.links[e.name as usize][..worlds];
        let grade = e.grade as u32;
        match e.kind {
            layout::TRUE => all,
            layout::FACT => self.facts[e.name as usize],
            layout::NOT => all & !first,
            layout::AND => first & words[e.second as usize],
            layout::OR => first | words[e.second as usize],
            layout::AT_LEAST => counted(to, first, |count| count >= grade),
            layout::AT_MOST => counted(to, first, |count| count <= grade),
            _ => 0,
        }
    }
}

fn entries(table: &[u8]) -> impl Iterator<Item = Entry> + '_ {
    let unpack = |b: &[u8]| Entry::unpack([b[0], b[1], b[2], b[3]]);
    table.chunks_exact(4).map(unpack)
}

/// The worlds whose number of ones passes.
fn counted(to: &[u64], part: u64, passes: impl Fn(u32) -> bool) -> u64 {
    let mut holds = 0;
    for (w, to) in to.iter().enumerate() {
        holds |= u64::from(passes((to & part).count_ones())) << w;
    }
    holds
}
