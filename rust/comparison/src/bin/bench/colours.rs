//! Colourings of graphs, in two ways: at one world by choices, and by successors, each of which is a colour.

use crate::case::Case;
use crate::families::{growing, Family};
use crate::tables::{decide, decide_below, facts, two_at_once, R};
use hurnavis::Writer;

const ODD: &[usize] = &[3, 5, 7, 9];

pub const COLOURS: &[Family] = &[
    growing(
        "complete graph with one colour too few",
        "corners",
        &[2, 3, 4],
        |n| decide(complete(n, n - 1)),
    ),
    growing(
        "complete graph with one colour too few, in a successor",
        "corners",
        &[2, 3, 4],
        |n| decide_below(complete(n, n - 1)),
    ),
    growing(
        "complete graph with enough colours",
        "corners",
        &[2, 3],
        |n| decide(complete(n, n)),
    ),
    growing("odd ring with two colours", "corners", ODD, |n| {
        decide(ring(n))
    }),
    growing(
        "odd ring with two colours, in a successor",
        "corners",
        ODD,
        |n| decide_below(ring(n)),
    ),
    growing(
        "even ring with two colours",
        "corners",
        &[4, 6, 8, 10],
        |n| decide(ring(n)),
    ),
    growing(
        "complete graph, one successor less",
        "corners",
        COMPLETE,
        |n| whole(n, n - 1),
    ),
    growing(
        "complete graph, a successor for each corner",
        "corners",
        COMPLETE,
        |n| whole(n, n),
    ),
    growing("odd wheel, 3 successors", "corners", WHEELS, |n| {
        wheel(n, 3)
    }),
    growing("odd wheel, 4 successors", "corners", WHEELS, |n| {
        wheel(n, 4)
    }),
    growing("Petersen graph", "successors", &[2, 3, 4], |colours| {
        decide(covered(&petersen(), 10, colours))
    }),
    growing("Groetzsch graph", "successors", &[2, 3, 4, 5], groetzsch),
];

const COMPLETE: &[usize] = &[2, 3, 4, 5, 6, 7, 8, 9, 10];
/// Corners of the rim.
const WHEELS: &[usize] = &[3, 5, 7, 9];

/// Each corner has a colour, no two corners have the same: a fact for each corner and colour.
fn complete(corners: usize, colours: usize) -> Writer {
    let mut t = Writer::new();
    let all = facts(&mut t, corners * colours);
    let of = |corner: usize| &all[corner * colours..(corner + 1) * colours];
    let mut wanted: Vec<usize> = (0..corners).map(|corner| t.any(of(corner))).collect();
    let mut clashes = Vec::new();
    for (one, other) in every_two(corners) {
        for colour in 0..colours {
            clashes.push(t.and(of(one)[colour], of(other)[colour]));
        }
    }
    let clash = t.any(&clashes);
    wanted.push(t.not(clash));
    t.all(&wanted);
    t
}

/// Neighbouring corners differ: one fact for each corner.
fn ring(corners: usize) -> Writer {
    let mut t = Writer::new();
    let facts = facts(&mut t, corners);
    let mut wanted = Vec::new();
    for i in 0..corners {
        let (one, other) = (facts[i], facts[(i + 1) % corners]);
        let both = t.and(one, other);
        wanted.push(t.or(one, other));
        wanted.push(t.not(both));
    }
    t.all(&wanted);
    t
}

/// A successor is a colour and has the corners of that colour, no two of which are joined.
fn covered(edges: &[(usize, usize)], corners: usize, colours: usize) -> Writer {
    let mut t = Writer::new();
    let facts = facts(&mut t, corners);
    let joined: Vec<usize> = edges
        .iter()
        .map(|(one, other)| t.and(facts[*one], facts[*other]))
        .collect();
    let clash = t.any(&joined);
    cover(&mut t, &facts, clash, colours);
    t
}

fn cover(t: &mut Writer, corners: &[usize], clash: usize, colours: usize) {
    let yes = t.truth();
    let mut wanted = vec![t.at_most(0, R, clash), t.at_most(colours as u8, R, yes)];
    wanted.extend(corners.iter().map(|corner| t.at_least(1, R, *corner)));
    t.all(&wanted);
}

/// All corners are joined: a successor has one of them.
fn whole(corners: usize, colours: usize) -> Case {
    let mut t = Writer::new();
    let facts = facts(&mut t, corners);
    let clash = two_at_once(&mut t, &facts);
    cover(&mut t, &facts, clash, colours);
    decide(t)
}

fn every_two(corners: usize) -> Vec<(usize, usize)> {
    let after = |one: usize| (one + 1..corners).map(move |other| (one, other));
    (0..corners).flat_map(after).collect()
}

/// An outer and an inner ring of five, the inner one a star.
fn petersen() -> Vec<(usize, usize)> {
    let outer = (0..5).map(|i| (i, (i + 1) % 5));
    let spokes = (0..5).map(|i| (i, i + 5));
    let star = (0..5).map(|i| (i + 5, (i + 2) % 5 + 5));
    outer.chain(spokes).chain(star).collect()
}

/// The hub is joined with all of the rim, which by itself takes three colours.
fn wheel(rim: usize, colours: usize) -> Case {
    let mut t = Writer::new();
    let corners = facts(&mut t, rim + 1);
    let outside = t.any(&corners[..rim]);
    let mut clashes = vec![t.and(corners[rim], outside)];
    clashes.extend((0..rim).map(|i| t.and(corners[i], corners[(i + 1) % rim])));
    let clash = t.any(&clashes);
    cover(&mut t, &corners, clash, colours);
    decide(t)
}

/// A ring of five, for each of its corners one that is joined with the corner's neighbours, and one that is joined with
/// these five: no three corners are joined, and yet three colours are too few.
fn groetzsch(colours: usize) -> Case {
    let mut t = Writer::new();
    let corners = facts(&mut t, 11);
    let (ring, others) = corners.split_at(5);
    let (images, last) = others.split_at(5);
    let every_image = t.any(images);
    let mut clashes = vec![t.and(last[0], every_image)];
    for i in 0..5 {
        let twins = t.or(ring[i], images[i]);
        let neighbours = t.or(ring[(i + 1) % 5], ring[(i + 4) % 5]);
        clashes.push(t.and(twins, neighbours));
    }
    let clash = t.any(&clashes);
    cover(&mut t, &corners, clash, colours);
    decide(t)
}
