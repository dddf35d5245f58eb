//! Equivalent rewrites of a formula, and small mutations that mostly change what it means.

use crate::formula::{Formula, Formula::*, Signs};
use hurnavis_comparison::xorshift::Xorshift;

/// An equivalent formula, rewritten at one node.
pub fn rewrite(random: &mut Xorshift, formula: Formula) -> Formula {
    let node = random.below(formula.size());
    let how = random.below(6);
    at(formula, node, &mut |f| rewritten(f, how))
}

/// A formula that differs in one node, of a meaning that may be wider, narrower, both or the same.
pub fn mutate(random: &mut Xorshift, signs: &Signs, formula: Formula) -> Formula {
    let node = random.below(formula.size());
    let fact = random.pick(&signs.facts);
    let relation = random.pick(&signs.relations);
    let how = random.below(6);
    at(formula, node, &mut |f| mutated(f, how, fact, relation))
}

/// The formula with the node replaced; nodes are numbered from the root on, each before its parts.
fn at(formula: Formula, node: usize, replace: &mut dyn FnMut(Formula) -> Formula) -> Formula {
    if node == 0 {
        return replace(formula);
    }
    let node = node - 1;
    match formula {
        Not(part) => at(*part, node, replace).not(),
        AtLeast(grade, relation, part) => {
            AtLeast(grade, relation, Box::new(at(*part, node, replace)))
        }
        AtMost(grade, relation, part) => {
            AtMost(grade, relation, Box::new(at(*part, node, replace)))
        }
        And(first, second) => {
            let (first, second) = at_either(*first, *second, node, replace);
            first.and(second)
        }
        Or(first, second) => {
            let (first, second) = at_either(*first, *second, node, replace);
            first.or(second)
        }
        leaf => leaf,
    }
}

fn at_either(
    first: Formula,
    second: Formula,
    node: usize,
    replace: &mut dyn FnMut(Formula) -> Formula,
) -> (Formula, Formula) {
    match node.checked_sub(first.size()) {
        None => (at(first, node, replace), second),
        Some(node) => (first, at(second, node, replace)),
    }
}

fn rewritten(formula: Formula, how: usize) -> Formula {
    match (how, formula) {
        (0, f) => f.not().not(),
        (1, f) => f.and(True),
        (2, f) => False.or(f),
        (3, And(first, second)) => second.and(*first),
        (3, Or(first, second)) => second.or(*first),
        (_, Not(part)) if matches!(*part, Not(_)) => match *part {
            Not(inner) => *inner,
            other => other.not(),
        },
        (_, And(first, second)) => first.not().or(second.not()).not(),
        (_, Or(first, second)) => first.not().and(second.not()).not(),
        // "At least n" is "not at most n - 1", at least 0 is true.
        (_, AtLeast(0, _, _)) => True,
        (_, AtLeast(n, relation, part)) => AtMost(n - 1, relation, part).not(),
        // "At most n" is "not at least n + 1", if that grade can be written.
        (_, AtMost(n, relation, part)) if n < 255 => AtLeast(n + 1, relation, part).not(),
        (_, f) => f,
    }
}

fn mutated(formula: Formula, how: usize, fact: u8, relation: u8) -> Formula {
    match (how, formula) {
        (0 | 1, AtLeast(grade, r, part)) => AtLeast(nudged(grade, how), r, part),
        (0 | 1, AtMost(grade, r, part)) => AtMost(nudged(grade, how), r, part),
        (2, AtLeast(grade, _, part)) => AtLeast(grade, relation, part),
        (2, AtMost(grade, _, part)) => AtMost(grade, relation, part),
        (3, AtLeast(grade, r, part)) => AtMost(grade, r, part),
        (3, AtMost(grade, r, part)) => AtLeast(grade, r, part),
        (0..=3, And(first, second)) => first.or(*second),
        (0..=3, Or(first, second)) => first.and(*second),
        (0..=3, Fact(_)) => Fact(fact),
        (4, f) => f.and(Fact(fact)),
        (5, f) => f.or(Fact(fact)),
        (_, f) => f.not(),
    }
}

/// One more or one less, within a byte.
fn nudged(grade: u8, how: usize) -> u8 {
    if how == 0 {
        grade.saturating_add(1)
    } else {
        grade.saturating_sub(1)
    }
}
