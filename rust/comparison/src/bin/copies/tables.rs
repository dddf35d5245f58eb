//! Random tables, which ask for counts near those of a structure.

use crate::structures::Style;
use hurnavis::Writer;
use hurnavis_comparison::layout::Record;
use hurnavis_comparison::xorshift::Xorshift;
use std::collections::BTreeMap;

/// A table of so many entries: true and the facts, then mostly countings over these and over each other.
pub fn draw(random: &mut Xorshift, style: &Style, records: &[Record], count: usize) -> Writer {
    let mut table = Writer::new();
    table.truth();
    for name in style.facts.iter().take(count.saturating_sub(2)) {
        table.fact(*name);
    }
    while table.count() < count {
        let (first, second) = (part(random, &table), part(random, &table));
        let (relation, grade) = counted(random, style, records);
        match random.below(12) {
            0 => table.not(first),
            1 => table.and(first, second),
            2 => table.or(first, second),
            3 => table.fact(random.pick(&style.facts)),
            4..=7 => table.at_least(grade, relation, first),
            _ => table.at_most(grade, relation, first),
        };
    }
    table
}

/// Half of the time true, where each link counts.
fn part(random: &mut Xorshift, table: &Writer) -> usize {
    match random.below(8) {
        0..=3 => 0,
        4..=5 => random.below(table.count().min(3)),
        _ => random.below(table.count()),
    }
}

/// A relation, and a grade near what its links from one world come to: counted rightly, or in a wrong way that a program could
/// take for right.
fn counted(random: &mut Xorshift, style: &Style, records: &[Record]) -> (u8, u8) {
    let Record::Link { from, relation, .. } = records[random.below(records.len())] else {
        return (random.pick(&style.relations), random.below(3) as u8);
    };
    let mut greatest: BTreeMap<u8, usize> = BTreeMap::new();
    let mut stated = 0;
    for record in records {
        match *record {
            Record::Link {
                from: f,
                relation: r,
                to,
                copies,
            } if (f, r) == (from, relation) => {
                let copies = usize::from(copies);
                stated += copies;
                let known = greatest.entry(to).or_default();
                *known = copies.max(*known);
            }
            _ => (),
        }
    }
    let (worlds, copies) = (greatest.len(), greatest.values().sum());
    let near: usize = random.pick(&[copies, copies, copies, copies, worlds, stated]);
    let grade = (near + random.pick(&[0, 0, 1])).saturating_sub(random.pick(&[0, 0, 0, 1]));
    (relation, grade.min(255) as u8)
}
