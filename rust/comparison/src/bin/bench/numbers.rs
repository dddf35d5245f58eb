//! Parts that exclude each other in few entries: numbers that some facts spell.

use crate::tables::facts;
use hurnavis::Writer;
use std::collections::HashMap;

/// Facts and their contraries; what was joined once is not written again.
pub struct Literals {
    /// For each bit the entries of its being 0 and 1.
    of: Vec<[usize; 2]>,
    joined: HashMap<(usize, usize), usize>,
}

impl Literals {
    pub fn write(t: &mut Writer, bits: usize) -> Literals {
        let of = facts(t, bits).into_iter().map(|one| [t.not(one), one]);
        Literals {
            of: of.collect(),
            joined: HashMap::new(),
        }
    }

    /// The facts spell this number, where the bits of the mask do not matter; some bit does.
    pub fn numbers(&mut self, t: &mut Writer, number: usize, mask: usize) -> usize {
        let mut all: Option<usize> = None;
        for bit in (0..self.of.len()).rev().filter(|bit| mask >> bit & 1 == 0) {
            let literal = self.of[bit][number >> bit & 1];
            all = Some(match all {
                None => literal,
                Some(all) => *self
                    .joined
                    .entry((all, literal))
                    .or_insert_with(|| t.and(all, literal)),
            });
        }
        all.expect("one bit at least")
    }
}
