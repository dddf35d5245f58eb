//! Truth at the worlds of a structure: definition 2.1 with document 01's way of counting, in copies since document 02's P7.

use crate::layout::{self, Entry};
use std::collections::{BTreeMap, HashMap};

/// A structure of 1 to 64 worlds. Sets of worlds are words, bit w for world w.
#[derive(Clone, Debug)]
pub struct Structure {
    worlds: usize,
    /// The worlds where a fact holds, by name.
    facts: HashMap<u8, u64>,
    /// For each relation its links, from one world to another, with the number of their copies.
    links: HashMap<u8, BTreeMap<(usize, usize), u32>>,
}

impl Structure {
    pub fn new(worlds: usize) -> Structure {
        assert!((1..=64).contains(&worlds));
        Structure {
            worlds,
            facts: HashMap::new(),
            links: HashMap::new(),
        }
    }

    pub fn worlds(&self) -> usize {
        self.worlds
    }

    /// States the fact at the world. Stating it again adds nothing.
    pub fn state(&mut self, world: usize, name: u8) {
        *self.facts.entry(name).or_insert(0) |= 1 << world;
    }

    /// Links two worlds by 1 to 4 copies. If they are linked already, the greater of the two numbers counts.
    pub fn link(&mut self, from: usize, relation: u8, to: usize, copies: u32) {
        assert!((1..=layout::MOST_COPIES.into()).contains(&copies));
        let links = self.links.entry(relation).or_default();
        let counts = links.entry((from, to)).or_default();
        *counts = copies.max(*counts);
    }

    fn all(&self) -> u64 {
        u64::MAX >> (64 - self.worlds)
    }

    /// The worlds from which between low and high copies of the relation's links lead into the part.
    fn counted(&self, relation: u8, part: u64, low: u32, high: u32) -> u64 {
        let mut counts = [0; 64];
        for ((from, to), copies) in self.links.get(&relation).into_iter().flatten() {
            if part >> to & 1 == 1 {
                counts[*from] += copies;
            }
        }
        let passes = |world: &usize| (low..=high).contains(&counts[*world]);
        (0..self.worlds)
            .filter(passes)
            .fold(0, |holds, world| holds | 1 << world)
    }
}

/// For each entry the worlds where it holds.
pub fn board(entries: &[Entry], structure: &Structure) -> Vec<u64> {
    let mut board: Vec<u64> = Vec::with_capacity(entries.len());
    for e in entries {
        let part = |to: u8| board[to as usize];
        board.push(match e.kind {
            layout::TRUE => structure.all(),
            layout::FACT => structure.facts.get(&e.name).copied().unwrap_or(0),
            layout::NOT => structure.all() & !part(e.first),
            layout::AND => part(e.first) & part(e.second),
            layout::OR => part(e.first) | part(e.second),
            layout::AT_LEAST => structure.counted(e.name, part(e.first), e.grade as u32, u32::MAX),
            layout::AT_MOST => structure.counted(e.name, part(e.first), 0, e.grade as u32),
            _ => 0,
        });
    }
    board
}
