//! Which truth values entries of a table can have together at one world, over all finite structures.
//!
//! Truth at a world is fixed by the facts there and by how many successors of each relation satisfy which parts.
//! Facts are free, relations do not bind each other, and a world's successors can be any worlds at all: structures can
//! stand side by side under a new world, each as often as wanted. So the realisable truth values of some entries are
//! all combinations of free facts and possible counts, where the counts come from the realisable truth values of the
//! counted parts, which are less deep.
//!
//! A link of c copies counts like links to c like worlds, which can stand side by side. So links of one copy realise all that
//! there is, and document 02's P7 changes nothing here.
//!
//! The combinations are swept in the order of evaluation. An entry that no later one looks at is forgotten on the way,
//! which keeps the sets small.

use super::counts::{self, Threshold};
use crate::layout::{self, Entry};
use std::collections::HashMap;
use std::rc::Rc;

/// Where the independent side gives up.
#[derive(Clone, Copy, Debug)]
pub struct Limits {
    /// The greatest set of truth values.
    pub vectors: usize,
    /// The most steps in adding up the successors of one relation.
    pub work: usize,
}

impl Limits {
    /// Enough for small random tables, quick enough for many of them.
    pub const SMALL: Limits = Limits {
        vectors: 1 << 12,
        work: 1 << 20,
    };
    /// Seconds rather than milliseconds.
    pub const LARGE: Limits = Limits {
        vectors: 1 << 20,
        work: 1 << 26,
    };
}

/// The realisable truth values of a table's entries. Sets of entries, and truth values, are words: bit e for entry e.
pub struct Realisable {
    /// The table with each reference replaced by the first entry that reads the same.
    entries: Vec<Entry>,
    /// For each entry the first one that reads the same, so that every fact stands once.
    same: Vec<usize>,
    limits: Limits,
    known: HashMap<u64, Rc<Vec<u64>>>,
}

impl Realisable {
    /// For the entries of a table without faults.
    pub fn new(entries: &[Entry], limits: Limits) -> Realisable {
        let (entries, same) = merged(entries);
        Realisable {
            entries,
            same,
            limits,
            known: HashMap::new(),
        }
    }

    /// The truth values that two entries can have at one world, or `None` beyond the limits.
    pub fn pairs(&mut self, one: usize, other: usize) -> Option<Vec<(bool, bool)>> {
        let (one, other) = (self.same[one], self.same[other]);
        let vectors = self.vectors(1 << one | 1 << other)?;
        let truth = |v: u64, e: usize| v >> e & 1 == 1;
        Some(
            vectors
                .iter()
                .map(|v| (truth(*v, one), truth(*v, other)))
                .collect(),
        )
    }

    /// The realisable truth values of the targets; bits of other entries are 0.
    fn vectors(&mut self, targets: u64) -> Option<Rc<Vec<u64>>> {
        if let Some(known) = self.known.get(&targets) {
            return Some(known.clone());
        }
        let order = self.evaluation_order(targets);
        let vectors = Rc::new(self.sweep(&order, targets)?);
        self.known.insert(targets, vectors.clone());
        Some(vectors)
    }

    /// The entries that the targets' truth at one world depends on, parts before wholes. Counted parts are not among
    /// them: they are looked at in other worlds.
    fn evaluation_order(&self, targets: u64) -> Vec<usize> {
        let mut order = Vec::new();
        for target in (0..self.entries.len()).filter(|e| targets >> e & 1 == 1) {
            self.visit(target, &mut order);
        }
        order
    }

    fn visit(&self, entry: usize, order: &mut Vec<usize>) {
        if order.contains(&entry) {
            return;
        }
        // The later part first: it mostly is the greater one, and what it needs is then forgotten before the other.
        let parts = here(self.entries[entry]);
        for part in (0..entry).rev().filter(|e| parts >> e & 1 == 1) {
            self.visit(part, order);
        }
        order.push(entry);
    }

    fn sweep(&mut self, order: &[usize], targets: u64) -> Option<Vec<u64>> {
        let mut vectors = vec![0];
        let mut answered: u64 = 0;
        for (step, &e) in order.iter().enumerate() {
            let entry = self.entries[e];
            if entry.kind == layout::FACT {
                vectors = self.product(&vectors, &[0, 1 << e])?;
            } else if entry.counts() {
                // All counting entries of a relation are answered at once, when the first of them comes up.
                if answered >> e & 1 == 0 {
                    let relation = self.counting(order, entry.name);
                    answered |= relation.iter().fold(0, |all, e| all | 1 << e);
                    let answers = self.answers(&relation)?;
                    vectors = self.product(&vectors, &answers)?;
                }
            } else {
                for v in &mut vectors {
                    *v |= (evaluate(entry, *v) as u64) << e;
                }
            }
            let kept = targets | self.looked_at(&order[step + 1..]);
            vectors.iter_mut().for_each(|v| *v &= kept);
            vectors.sort_unstable();
            vectors.dedup();
        }
        Some(vectors)
    }

    /// Each of the vectors with each of the additions.
    fn product(&self, vectors: &[u64], additions: &[u64]) -> Option<Vec<u64>> {
        if vectors.len().checked_mul(additions.len())? > self.limits.vectors {
            return None;
        }
        let with = |v: &u64| additions.iter().map(move |a| *v | a).collect::<Vec<_>>();
        Some(vectors.iter().flat_map(with).collect())
    }

    /// The entries whose truth at this world the steps look at.
    fn looked_at(&self, steps: &[usize]) -> u64 {
        steps
            .iter()
            .fold(0, |all, e| all | 1 << e | here(self.entries[*e]))
    }

    /// The counting entries of the relation in the order.
    fn counting(&self, order: &[usize], relation: u8) -> Vec<usize> {
        let counts = |e: &usize| self.entries[*e].counts() && self.entries[*e].name == relation;
        order.iter().copied().filter(counts).collect()
    }

    /// The possible answers of the counting entries of one relation.
    fn answers(&mut self, counting: &[usize]) -> Option<Vec<u64>> {
        let thresholds: Vec<Threshold> = counting.iter().map(|e| self.threshold(*e)).collect();
        let parts = thresholds.iter().fold(0, |all, t| all | t.part);
        let sorts = self.vectors(parts)?;
        counts::answers(&thresholds, &sorts, self.limits.work)
    }

    fn threshold(&self, e: usize) -> Threshold {
        let entry = self.entries[e];
        let upwards = entry.kind == layout::AT_LEAST;
        Threshold {
            part: 1 << entry.first,
            // "At most n" is the contrary of "at least n + 1".
            from: entry.grade as usize + if upwards { 0 } else { 1 },
            upwards,
            entry: 1 << e,
        }
    }
}

/// The parts whose truth at the same world an entry's truth depends on.
fn here(entry: Entry) -> u64 {
    match entry.kind {
        layout::NOT => 1 << entry.first,
        layout::AND | layout::OR => 1 << entry.first | 1 << entry.second,
        _ => 0,
    }
}

/// The truth of an entry that is no fact and does not count, from the truth of its parts.
fn evaluate(entry: Entry, vector: u64) -> bool {
    let part = |e: u8| vector >> e & 1 == 1;
    match entry.kind {
        layout::TRUE => true,
        layout::NOT => !part(entry.first),
        layout::AND => part(entry.first) && part(entry.second),
        layout::OR => part(entry.first) || part(entry.second),
        _ => false,
    }
}

/// The table with equal entries made one, and for each entry the one that stands for it.
fn merged(entries: &[Entry]) -> (Vec<Entry>, Vec<usize>) {
    let mut first_of: HashMap<Entry, usize> = HashMap::new();
    let mut merged = Vec::new();
    let mut same: Vec<usize> = Vec::new();
    for (number, e) in entries.iter().enumerate() {
        let mut e = *e;
        if e.kind >= layout::NOT {
            e.first = same[e.first as usize] as u8;
        }
        if e.joins() {
            e.second = same[e.second as usize] as u8;
        }
        merged.push(e);
        same.push(*first_of.entry(e).or_insert(number));
    }
    (merged, same)
}

#[cfg(test)]
mod tests {
    use super::*;
    use hurnavis::Writer;

    fn pairs(table: &Writer, one: usize, other: usize) -> Vec<(bool, bool)> {
        let entries = layout::unpack_table(&table.bytes());
        let mut pairs = Realisable::new(&entries, Limits::SMALL)
            .pairs(one, other)
            .unwrap();
        pairs.sort_unstable();
        pairs.dedup();
        pairs
    }

    #[test]
    fn a_fact_written_twice_is_one_fact() {
        let mut t = Writer::new();
        let (one, other) = (t.fact(3), t.fact(3));
        assert_eq!(pairs(&t, one, other), [(false, false), (true, true)]);
    }

    #[test]
    fn different_facts_are_free() {
        let mut t = Writer::new();
        let (one, other) = (t.fact(3), t.fact(4));
        assert_eq!(pairs(&t, one, other).len(), 4);
    }

    /// The last entries of a long table: sets of entries have more than 32 bits.
    #[test]
    fn late_entries_are_as_good_as_early_ones() {
        let mut t = Writer::new();
        while t.count() < 58 {
            t.truth();
        }
        let fact = t.fact(0);
        let two = t.at_least(2, 9, fact);
        let few = t.at_most(1, 9, fact);
        let other = t.at_least(1, 8, fact);
        let either = t.or(few, other);
        assert_eq!(pairs(&t, two, few), [(false, true), (true, false)]);
        assert_eq!(
            pairs(&t, two, either),
            [(false, true), (true, false), (true, true)]
        );
    }

    #[test]
    fn relations_are_free_of_each_other() {
        let mut t = Writer::new();
        let fact = t.fact(0);
        let (one, other) = (t.at_least(1, 1, fact), t.at_most(0, 2, fact));
        assert_eq!(pairs(&t, one, other).len(), 4);
    }

    #[test]
    fn deeper_countings_bind_their_parts() {
        // At least 1 successor that needs 2 of p and has at most 1 of p: none.
        let mut t = Writer::new();
        let p = t.fact(0);
        let wanted = [t.at_least(2, 0, p), t.at_most(1, 0, p)];
        let clash = t.all(&wanted);
        let deep = t.at_least(1, 0, clash);
        let none = t.at_most(0, 0, clash);
        assert_eq!(pairs(&t, deep, none), [(false, true)]);
    }
}
