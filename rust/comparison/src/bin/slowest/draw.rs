//! Random tables with many countings on one or two relations over few facts.

use crate::change;
use hurnavis_comparison::layout::{
    self, Entry, AND, AT_LEAST, AT_MOST, FACT, FALSE, NOT, OR, TRUE,
};
use hurnavis_comparison::xorshift::Xorshift;

/// A table of which the last entry is asked for, and in which each entry plays a part in it.
pub fn table(random: &mut Xorshift, grade: u8) -> Vec<Entry> {
    let mut draft = Draft::new(random, grade);
    let twice = draft.random.percent(10);
    let most = layout::MOST_ENTRIES;
    let length = draft
        .random
        .between(12, if twice { most / 2 - 1 } else { most });
    draft.facts_and_parts(length);
    draft.wanted(length);
    let mut entries = draft.entries;
    if twice {
        typed_again(random, &mut entries);
    }
    change::reachable(&entries)
}

struct Draft<'a> {
    random: &'a mut Xorshift,
    entries: Vec<Entry>,
    /// What may be counted.
    parts: Vec<usize>,
    relations: u8,
    /// The greatest grade, and how many in a hundred countings are the second one of a pair on one part.
    great: usize,
    pairs: usize,
}

impl Draft<'_> {
    fn new(random: &mut Xorshift, grade: u8) -> Draft<'_> {
        let relations = random.pick(&[1, 1, 1, 2]);
        let great = random.pick(&[1, 2, 3, 5, 12, 40, 255]).min(grade as usize);
        let pairs = random.pick(&[0, 20, 60]);
        Draft {
            random,
            entries: Vec::new(),
            parts: Vec::new(),
            relations,
            great,
            pairs,
        }
    }

    fn push(&mut self, kind: u8, first: usize, second: usize) -> usize {
        self.entries.push(Entry {
            kind,
            name: 0,
            first: first as u8,
            second: second as u8,
            grade: 0,
        });
        self.entries.len() - 1
    }

    /// Facts, joined and negated ones, and sometimes countings as parts of countings.
    fn facts_and_parts(&mut self, length: usize) {
        for name in 0..self.random.between(2, 8.min(length / 4)) {
            let fact = self.push(FACT, 0, 0);
            self.entries[fact].name = name as u8;
            self.parts.push(fact);
        }
        if self.random.percent(50) {
            let kind = self.random.pick(&[TRUE, TRUE, TRUE, FALSE]);
            let constant = self.push(kind, 0, 0);
            self.parts.push(constant);
        }
        let nested = self.random.pick(&[0, 0, 0, 10, 30]);
        for _ in 0..self.random.between(0, length / 2) {
            let (first, second) = (self.part(), self.part());
            let part = match self.random.below(10) {
                _ if self.random.percent(nested) => self.counting(first),
                0..=1 => self.push(NOT, first, 0),
                2..=5 => self.push(AND, first, second),
                _ => self.push(OR, first, second),
            };
            self.parts.push(part);
        }
    }

    fn part(&mut self) -> usize {
        self.random.pick(&self.parts)
    }

    fn counting(&mut self, part: usize) -> usize {
        let kind = self.random.pick(&[AT_LEAST, AT_MOST]);
        let counting = self.push(kind, part, 0);
        let entry = &mut self.entries[counting];
        entry.name = self.random.below(self.relations as usize) as u8;
        entry.grade = self.random.below(self.great + 1) as u8;
        counting
    }

    /// The contrary bound of another counting on the same part, as large or a little larger.
    fn beside(&mut self, counting: usize) -> usize {
        let mut other = self.entries[counting];
        other.kind = AT_LEAST + AT_MOST - other.kind;
        let near = self.random.pick(&[0, 0, 1, 2]);
        other.grade = match other.kind {
            AT_MOST => other.grade.saturating_add(near).min(self.great as u8),
            _ => other.grade.saturating_sub(near),
        };
        self.entries.push(other);
        self.entries.len() - 1
    }

    /// Countings, and sometimes choices between two, all of them wanted.
    fn wanted(&mut self, length: usize) {
        let choices = self.random.pick(&[0, 0, 0, 20, 50]);
        let part = self.part();
        let mut last = self.counting(part);
        let mut wanted = vec![last];
        while self.entries.len() + wanted.len() + 2 < length {
            let part = self.part();
            last = if self.entries[last].kind >= AT_LEAST && self.random.percent(self.pairs) {
                self.beside(last)
            } else {
                self.counting(part)
            };
            let choice = self.random.percent(choices) && wanted.len() > 1;
            wanted.push(last);
            if choice {
                let (one, other) = (wanted.pop(), wanted.pop());
                last = self.push(OR, one.unwrap_or(last), other.unwrap_or(last));
                wanted.push(last);
            }
        }
        let mut all = wanted[0];
        for one in &wanted[1..] {
            all = self.push(AND, all, *one);
        }
    }
}

/// The same table once more behind itself, with some references exchanged; asked for is the one without the other.
fn typed_again(random: &mut Xorshift, entries: &mut Vec<Entry>) {
    let count = entries.len();
    for i in 0..count {
        let mut entry = entries[i];
        if entry.kind >= NOT {
            entry.first += count as u8;
        }
        if entry.joins() {
            entry.second += count as u8;
            if random.percent(50) {
                std::mem::swap(&mut entry.first, &mut entry.second);
            }
        }
        entries.push(entry);
    }
    let join = |kind: u8, first: usize, second: usize| Entry {
        kind,
        name: 0,
        first: first as u8,
        second: second as u8,
        grade: 0,
    };
    entries.push(join(NOT, 2 * count - 1, 0));
    entries.push(join(AND, count - 1, 2 * count));
}
