//! Worlds behind worlds.

use crate::case::Case;
use crate::families::{growing, Family};
use crate::tables::{decide, R};
use hurnavis::Writer;

const DEPTHS: &[usize] = &[1, 8, 16, 32, 48, 63];

pub const CHAINS: &[Family] = &[
    growing("chain of at least 1", "depth", DEPTHS, |d| chain(d, 1)),
    growing("chain of at least 255", "depth", DEPTHS, |d| chain(d, 255)),
    growing("chain of at most 1", "depth", DEPTHS, |d| limits(d, 1)),
    growing("chain of at most 255", "depth", DEPTHS, |d| limits(d, 255)),
    growing("chain of exactly 1", "depth", &[1, 2, 4, 8, 16, 21], |d| {
        exactly(d, 1)
    }),
    growing(
        "chain of exactly 255",
        "depth",
        &[1, 2, 4, 8, 16, 21],
        |d| exactly(d, 255),
    ),
    growing(
        "shared conjunctions on two relations",
        "depth",
        &[1, 2, 4, 6, 8, 10, 12, 14, 16, 18, 20, 21],
        shared,
    ),
    growing(
        "one with and one without at each depth",
        "depth",
        &[1, 2, 4, 6, 8, 10, 12, 14, 15],
        with_and_without,
    ),
    growing(
        "exactly 2 with and exactly 2 without at each depth",
        "depth",
        &[1, 2, 3, 4, 5, 6, 7],
        two_with_and_two_without,
    ),
];

fn chain(depth: usize, grade: u8) -> Case {
    let mut t = Writer::new();
    let mut last = t.fact(0);
    for _ in 0..depth {
        last = t.at_least(grade, R, last);
    }
    decide(t)
}

fn limits(depth: usize, grade: u8) -> Case {
    let mut t = Writer::new();
    let mut last = t.fact(0);
    for _ in 0..depth {
        last = t.at_most(grade, R, last);
    }
    decide(t)
}

fn exactly(depth: usize, grade: u8) -> Case {
    let mut t = Writer::new();
    let mut last = t.fact(0);
    for _ in 0..depth {
        let both = [t.at_least(grade, R, last), t.at_most(grade, R, last)];
        last = t.all(&both);
    }
    decide(t)
}

/// At each depth a successor of either relation, over the same entry: written out, the formula doubles with each depth.
fn shared(depth: usize) -> Case {
    let mut t = Writer::new();
    let mut last = t.fact(0);
    for _ in 0..depth {
        let both = [t.at_least(1, 0, last), t.at_least(1, 1, last)];
        last = t.all(&both);
    }
    decide(t)
}

/// On one relation, a successor that is as wanted and one that is not: both are asked about at each depth.
fn with_and_without(depth: usize) -> Case {
    let mut t = Writer::new();
    let mut last = t.fact(0);
    for _ in 0..depth {
        let contrary = t.not(last);
        let both = [t.at_least(1, R, last), t.at_least(1, R, contrary)];
        last = t.all(&both);
    }
    decide(t)
}

fn two_with_and_two_without(depth: usize) -> Case {
    let mut t = Writer::new();
    let mut last = t.fact(0);
    for _ in 0..depth {
        let contrary = t.not(last);
        let wanted = [
            t.at_least(2, R, last),
            t.at_most(2, R, last),
            t.at_least(2, R, contrary),
            t.at_most(2, R, contrary),
        ];
        last = t.all(&wanted);
    }
    decide(t)
}
