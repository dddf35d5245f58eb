//! The numbers 1 to 7, spelled by three facts, as the points of the smallest plane: problems that thirds and fourths would
//! solve.

use crate::case::Case;
use crate::families::{growing, Family};
use crate::tables::{decide, facts, R};
use hurnavis::Writer;

const G: &[usize] = &[
    1, 2, 3, 4, 5, 6, 7, 8, 9, 12, 15, 16, 31, 32, 60, 63, 64, 84, 85, 254, 255,
];

pub const PLANES: &[Family] = &[
    growing("plane of 7 points, exactly g on each line", "g", G, lines),
    growing(
        "plane of 7 points, exactly g off each line",
        "g",
        G,
        off_lines,
    ),
];

/// A line has three points, and a point is on three lines: every point has g / 3.
fn lines(g: usize) -> Case {
    let mut t = Writer::new();
    let off = off_each_line(&mut t);
    let on: Vec<usize> = off.iter().map(|part| t.not(*part)).collect();
    // The first three parts are the facts: the number 0 is no point.
    let zero = t.all(&on[..3]);
    let none = t.at_most(0, R, zero);
    exactly(t, &on, g, vec![none])
}

/// Four points are off a line, and a point is off four lines: every point has g / 4.
fn off_lines(g: usize) -> Case {
    let mut t = Writer::new();
    let off = off_each_line(&mut t);
    exactly(t, &off, g, Vec::new())
}

fn exactly(mut t: Writer, parts: &[usize], g: usize, mut wanted: Vec<usize>) -> Case {
    for part in parts {
        wanted.push(t.at_least(g as u8, R, *part));
        wanted.push(t.at_most(g as u8, R, *part));
    }
    t.all(&wanted);
    decide(t)
}

/// An odd number of some of the three facts holds: for one of them, for two and for all.
fn off_each_line(t: &mut Writer) -> Vec<usize> {
    let bits = facts(t, 3);
    let contraries: Vec<usize> = bits.iter().map(|bit| t.not(*bit)).collect();
    let mut parts = bits.clone();
    for (i, j) in [(0, 1), (0, 2), (1, 2)] {
        parts.push(one_of(
            t,
            [bits[i], contraries[i]],
            [bits[j], contraries[j]],
        ));
    }
    let two = parts[3];
    let not_two = t.not(two);
    parts.push(one_of(t, [two, not_two], [bits[2], contraries[2]]));
    parts
}

/// One of two parts and not the other; each comes with its contrary.
fn one_of(t: &mut Writer, one: [usize; 2], other: [usize; 2]) -> usize {
    let (first, second) = (t.and(one[0], other[1]), t.and(one[1], other[0]));
    t.or(first, second)
}
