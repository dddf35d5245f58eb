//! Pigeons: one more than fits into the holes, or as many as fit.

use crate::case::Case;
use crate::families::{growing, Family};
use crate::tables::{decide, facts, mark, two_at_once, R};
use hurnavis::Writer;

const HOLES: &[usize] = &[1, 2, 3, 4, 5, 6, 7, 8, 9, 10, 11, 12, 13, 14, 15];
/// Twenty to each of them are 255 at most.
const WIDE: &[usize] = &[1, 2, 3, 4, 5, 6, 7, 8, 9, 10, 11, 12];
const NAMED: &[usize] = &[1, 2, 3, 4, 5, 6];

pub const PIGEONS: &[Family] = &[
    growing("one pigeon more than holes", "holes", HOLES, |holes| {
        pigeons(holes + 1, holes, 1)
    }),
    growing("as many pigeons as holes", "holes", HOLES, |holes| {
        pigeons(holes, holes, 1)
    }),
    growing(
        "one pigeon more than 20 to a hole",
        "holes",
        WIDE,
        |holes| pigeons(20 * holes + 1, holes, 20),
    ),
    growing("20 pigeons to a hole", "holes", WIDE, |holes| {
        pigeons(20 * holes, holes, 20)
    }),
    growing(
        "named pigeons, one more than holes, 1 of each, 1 to a hole",
        "holes",
        NAMED,
        |holes| named(holes + 1, holes, 1),
    ),
    growing(
        "named pigeons, as many as holes, 1 of each, 1 to a hole",
        "holes",
        NAMED,
        |holes| named(holes, holes, 1),
    ),
    growing(
        "named pigeons, one more than holes, 20 of each, 20 to a hole",
        "holes",
        NAMED,
        |holes| named(holes + 1, holes, 20),
    ),
    growing(
        "named pigeons, as many as holes, 20 of each, 20 to a hole",
        "holes",
        NAMED,
        |holes| named(holes, holes, 20),
    ),
    growing(
        "named pigeons, one more than 6 holes, g of each, g to a hole",
        "g",
        &[1, 2, 3, 5, 10, 20, 50, 100, 255],
        |g| named(7, 6, g as u8),
    ),
];

pub const MARKS: &[Family] = &[growing(
    "mark of two pigeonhole descriptions",
    "holes",
    &[1, 2, 3, 4, 5, 6, 7],
    mark_pigeons,
)];

/// So many successors, each in a hole, at most so many in each hole.
fn pigeons(pigeons: usize, holes: usize, room: u8) -> Case {
    let mut t = Writer::new();
    write_pigeons(&mut t, pigeons, holes, room);
    decide(t)
}

fn write_pigeons(t: &mut Writer, pigeons: usize, holes: usize, room: u8) -> usize {
    let holes = facts(t, holes);
    let housed = t.any(&holes);
    let homeless = t.not(housed);
    let yes = t.truth();
    let mut wanted = vec![t.at_least(pigeons as u8, R, yes), t.at_most(0, R, homeless)];
    wanted.extend(holes.iter().map(|hole| t.at_most(room, R, *hole)));
    t.all(&wanted)
}

/// Every pigeon has a name and comes g times, no successor is two pigeons, and a hole has room for g.
fn named(pigeons: usize, holes: usize, g: u8) -> Case {
    let mut t = Writer::new();
    let all = facts(&mut t, pigeons + holes);
    let (pigeons, holes) = all.split_at(pigeons);
    let housed = t.any(holes);
    let mut forbidden = t.not(housed);
    if pigeons.len() > 1 {
        let two = two_at_once(&mut t, pigeons);
        forbidden = t.or(two, forbidden);
    }
    let mut wanted = vec![t.at_most(0, R, forbidden)];
    wanted.extend(pigeons.iter().map(|pigeon| t.at_least(g, R, *pigeon)));
    wanted.extend(holes.iter().map(|hole| t.at_most(g, R, *hole)));
    t.all(&wanted);
    decide(t)
}

/// As many pigeons as holes, beside one more: nobody meets the answer.
fn mark_pigeons(holes: usize) -> Case {
    let mut t = Writer::new();
    let model = write_pigeons(&mut t, holes, holes, 1);
    let answer = write_pigeons(&mut t, holes + 1, holes, 1);
    mark(t, model, answer)
}
