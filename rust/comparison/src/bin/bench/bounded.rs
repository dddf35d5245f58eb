//! Facts of which each has its own need and its own limit: every set of facts is a largest set of promises, since a
//! successor keeps either the need or the limit of each.

use crate::case::Case;
use crate::families::{growing, Family};
use crate::tables::{decide, facts, R};
use hurnavis::Writer;

const FACTS: &[usize] = &[2, 3, 4, 5, 6, 7, 8, 9, 10, 11, 12, 13];

pub const BOUNDED: &[Family] = &[
    growing("1 to 255 of each fact", "facts", FACTS, |n| {
        bounded(n, 1, 255)
    }),
    growing("exactly 1 of each fact", "facts", FACTS, |n| {
        bounded(n, 1, 1)
    }),
    growing("exactly 200 of each fact", "facts", FACTS, |n| {
        bounded(n, 200, 200)
    }),
    growing(
        "exactly 1 of each fact, and 1 of false",
        "facts",
        &[2, 3, 4, 5, 6, 7, 8, 9, 10, 11, 12],
        with_false,
    ),
    growing(
        "exactly 1 of each fact, 1 in all",
        "facts",
        &[2, 3, 4, 5, 6, 7, 8, 9, 10, 11, 12],
        |n| in_all(n, 1),
    ),
    growing(
        "exactly 2 of each fact, 1 in all",
        "facts",
        &[2, 3, 4, 5, 6, 7, 8, 9, 10, 11, 12],
        |n| in_all(n, 2),
    ),
    growing(
        "exactly 1 of each fact, each bound typed twice",
        "facts",
        &[2, 3, 4, 5, 6, 7],
        twice,
    ),
    growing(
        "exactly 1 of each fact, at least 0 of each contrary",
        "facts",
        &[2, 3, 4, 5, 6, 7, 8],
        with_nothing_asked,
    ),
];

fn bounded(n: usize, least: u8, most: u8) -> Case {
    let (mut t, facts) = written(n);
    let wanted = bounds(&mut t, &facts, least, most);
    all(t, wanted)
}

fn written(n: usize) -> (Writer, Vec<usize>) {
    let mut t = Writer::new();
    let facts = facts(&mut t, n);
    (t, facts)
}

fn bounds(t: &mut Writer, facts: &[usize], least: u8, most: u8) -> Vec<usize> {
    let both = |fact: &usize| [t.at_least(least, R, *fact), t.at_most(most, R, *fact)];
    facts.iter().flat_map(both).collect()
}

fn all(mut t: Writer, wanted: Vec<usize>) -> Case {
    t.all(&wanted);
    decide(t)
}

/// One need that nobody meets, beside all the others.
fn with_false(n: usize) -> Case {
    let (mut t, facts) = written(n);
    let mut wanted = bounds(&mut t, &facts, 1, 1);
    let no = t.falsity();
    wanted.push(t.at_least(1, R, no));
    all(t, wanted)
}

/// Too few successors for 2 of a fact, enough for 1 of all.
fn in_all(n: usize, each: u8) -> Case {
    let (mut t, facts) = written(n);
    let mut wanted = bounds(&mut t, &facts, each, each);
    let yes = t.truth();
    wanted.push(t.at_most(1, R, yes));
    all(t, wanted)
}

fn twice(n: usize) -> Case {
    let (mut t, facts) = written(n);
    let mut wanted = bounds(&mut t, &facts, 1, 1);
    wanted.extend(bounds(&mut t, &facts, 1, 1));
    all(t, wanted)
}

/// The added needs ask for nothing.
fn with_nothing_asked(n: usize) -> Case {
    let (mut t, facts) = written(n);
    let mut wanted = bounds(&mut t, &facts, 1, 1);
    for fact in facts {
        let contrary = t.not(fact);
        wanted.push(t.at_least(0, R, contrary));
    }
    all(t, wanted)
}
