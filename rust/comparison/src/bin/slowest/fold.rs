//! Tables without the waste that one look at the table could fold away, so that a search finds what is slow beyond it.

use crate::change;
use hurnavis_comparison::layout::{Entry, AND, AT_LEAST, NOT, OR};
use std::collections::HashMap;

/// The table with equal entries made one, the order of what "and" and "or" join left aside; without a negation of a
/// negation, without parts joined with themselves; and with "at least 1" for "at least 0".
pub fn folded(table: &[Entry]) -> Vec<Entry> {
    let mut entries = table.to_vec();
    let mut first_of: HashMap<Entry, usize> = HashMap::new();
    let mut same: Vec<usize> = Vec::new();
    for number in 0..entries.len() {
        let mut entry = entries[number];
        if entry.kind >= NOT {
            entry.first = same[entry.first as usize] as u8;
        }
        if entry.joins() {
            let (first, second) = (entry.first, same[entry.second as usize] as u8);
            (entry.first, entry.second) = (first.min(second), first.max(second));
        }
        if entry.kind == AT_LEAST {
            entry.grade = entry.grade.max(1);
        }
        entries[number] = entry;
        same.push(match inner(&entries, entry) {
            Some(part) => part,
            None => *first_of.entry(entry).or_insert(number),
        });
    }
    let last = same[entries.len() - 1];
    change::reachable(&entries[..=last])
}

/// The earlier entry that means the same, if the entry's form shows it.
fn inner(entries: &[Entry], entry: Entry) -> Option<usize> {
    let part = entries.get(entry.first as usize)?;
    match entry.kind {
        NOT if part.kind == NOT => Some(part.first as usize),
        AND | OR if entry.first == entry.second => Some(entry.first as usize),
        _ => None,
    }
}
