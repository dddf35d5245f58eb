//! Small structures for looking for worlds by trying: all of them where they are few, drawn ones otherwise.

use super::truth::{self, Structure};
use crate::layout::{self, Entry, MOST_COPIES};
use crate::xorshift::Xorshift;
use std::collections::BTreeSet;

/// Which truth values of entries were seen together at some world.
#[derive(Clone, Debug, Default)]
pub struct Seen {
    boards: Vec<Vec<u64>>,
}

impl Seen {
    /// Looks at all structures of up to `worlds` worlds and with one copy of each link, where they have at most 2 to the power
    /// `bits` variants, and at `draws` drawn ones, of which some have more copies.
    pub fn look(
        entries: &[Entry],
        worlds: usize,
        bits: usize,
        draws: usize,
        random: &mut Xorshift,
    ) -> Seen {
        let signs = Signs::of(entries);
        let mut seen = Seen::default();
        for worlds in (1..=worlds).filter(|w| signs.bits(*w) <= bits) {
            for variant in 0..1u64 << signs.bits(worlds) {
                let mut rest = variant;
                let structure = signs.structure(worlds, |_| {
                    let bit = rest & 1;
                    rest >>= 1;
                    bit as u32
                });
                seen.boards.push(truth::board(entries, &structure));
            }
        }
        for _ in 0..draws {
            let worlds = random.between(1, worlds);
            let share = random.pick(&[25, 50, 75]);
            let copies = random.pick(&[1, 2, MOST_COPIES]) as usize;
            let structure = signs.structure(worlds, |most| match random.percent(share) {
                true => random.between(1, copies.min(most)) as u32,
                false => 0,
            });
            seen.boards.push(truth::board(entries, &structure));
        }
        seen
    }

    /// The number of structures looked at.
    pub fn structures(&self) -> usize {
        self.boards.len()
    }

    /// Whether the entry was seen to hold.
    pub fn holds(&self, entry: usize) -> bool {
        self.boards.iter().any(|b| b[entry] != 0)
    }

    /// Whether one entry was seen to hold where another did not.
    pub fn separated(&self, one: usize, other: usize) -> bool {
        self.boards.iter().any(|b| b[one] & !b[other] != 0)
    }
}

/// The facts and relations that a table speaks of: others change no truth in it.
struct Signs {
    facts: BTreeSet<u8>,
    relations: BTreeSet<u8>,
}

impl Signs {
    fn of(entries: &[Entry]) -> Signs {
        let facts = entries.iter().filter(|e| e.kind == layout::FACT);
        let relations = entries.iter().filter(|e| e.counts());
        Signs {
            facts: facts.map(|e| e.name).collect(),
            relations: relations.map(|e| e.name).collect(),
        }
    }

    /// How many yes-or-no choices a structure of this many worlds has, where each link has one copy.
    fn bits(&self, worlds: usize) -> usize {
        worlds * self.facts.len() + worlds * worlds * self.relations.len()
    }

    /// The structure that is chosen: each choice is 0 for nothing, or up to so many for the copies.
    fn structure(&self, worlds: usize, mut choose: impl FnMut(usize) -> u32) -> Structure {
        let mut structure = Structure::new(worlds);
        for world in 0..worlds {
            for name in &self.facts {
                if choose(1) > 0 {
                    structure.state(world, *name);
                }
            }
            for relation in &self.relations {
                for to in 0..worlds {
                    let copies = choose(MOST_COPIES.into());
                    if copies > 0 {
                        structure.link(world, *relation, to, copies);
                    }
                }
            }
        }
        structure
    }
}
