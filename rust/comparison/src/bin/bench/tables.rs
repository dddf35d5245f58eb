//! What the tables of several families share.

use crate::case::{Case, Question};
use hurnavis::Writer;
use hurnavis_comparison::layout;

/// The relation, where one is enough.
pub const R: u8 = 0;

/// Decides the last entry.
pub fn decide(table: Writer) -> Case {
    assert!(table.count() <= layout::MOST_ENTRIES, "a table too long");
    Case {
        question: Question::Decide(table.count() - 1),
        table: table.bytes(),
    }
}

/// Decides whether some successor makes the last entry true.
pub fn decide_below(mut table: Writer) -> Case {
    table.at_least(1, R, table.count() - 1);
    decide(table)
}

/// Decides the first entry without the second.
pub fn without(mut table: Writer, one: usize, other: usize) -> Case {
    let other = table.not(other);
    table.and(one, other);
    decide(table)
}

/// The mark of the model's entry and the answer's.
pub fn mark(table: Writer, model: usize, answer: usize) -> Case {
    assert!(table.count() <= layout::MOST_ENTRIES, "a table too long");
    Case {
        table: table.bytes(),
        question: Question::Mark(model, answer),
    }
}

/// So many facts, named from 0 on.
pub fn facts(t: &mut Writer, count: usize) -> Vec<usize> {
    (0..count).map(|i| t.fact(i as u8)).collect()
}

/// At least two of the parts hold.
pub fn two_at_once(t: &mut Writer, parts: &[usize]) -> usize {
    let mut one = parts[0];
    let mut two: Option<usize> = None;
    for (i, part) in parts.iter().enumerate().skip(1) {
        let again = t.and(one, *part);
        two = Some(two.map_or(again, |two| t.or(two, again)));
        if i + 1 < parts.len() {
            one = t.or(one, *part);
        }
    }
    two.expect("two parts at least")
}
