//! Many parts on one relation.

use crate::case::Case;
use crate::families::{growing, Family};
use crate::tables::{decide, facts, two_at_once, R};
use hurnavis::Writer;

const MANY: &[usize] = &[1, 2, 4, 6, 8, 10, 12, 16, 20];

pub const PARTS: &[Family] = &[
    growing(
        "independent parts, 2 of each",
        "parts",
        &[1, 2, 4, 6, 8, 10, 12, 16, 20, 21],
        |n| independent_parts(n, None),
    ),
    growing(
        "independent parts, 2 of each, 2 in all",
        "parts",
        MANY,
        |n| independent_parts(n, Some(2)),
    ),
    growing(
        "independent parts, 2 of each, 1 in all",
        "parts",
        MANY,
        |n| independent_parts(n, Some(1)),
    ),
    growing(
        "n of part n, as many in all as of the last",
        "parts",
        MANY,
        |n| stairs(n, n),
    ),
    growing(
        "n of part n, one less in all than of the last",
        "parts",
        MANY,
        |n| stairs(n, n - 1),
    ),
    growing(
        "parts in a ring, 2 of each, none of two neighbours, 4 in all",
        "parts",
        &[4, 5, 6, 7, 8, 9, 10, 11, 12],
        |n| ring_apart(n, 4),
    ),
    growing(
        "parts in a ring, 2 of each, none of two neighbours, 5 in all",
        "parts",
        &[4, 5, 6, 7, 8, 9, 10, 11, 12],
        |n| ring_apart(n, 5),
    ),
    growing(
        "parts in a ring, 2 of each, 1 of two neighbours, 3 in all",
        "parts",
        &[3, 4, 5, 6, 7, 8, 9, 10],
        |n| ring_once(n, 3),
    ),
    growing(
        "parts in a ring, 2 of each, 1 of two neighbours, 2 in all",
        "parts",
        &[3, 4, 5, 6, 7, 8, 9, 10],
        |n| ring_once(n, 2),
    ),
    growing(
        "parts, 2 of each, 1 of each two, 4 in all",
        "parts",
        &[2, 3, 4, 5],
        |n| every_two(n, 4),
    ),
    growing(
        "parts, 2 of each, 1 of each two, 3 in all",
        "parts",
        &[2, 3, 4, 5],
        |n| every_two(n, 3),
    ),
    growing(
        "parts that exclude each other, 20 of each, one too few in all",
        "parts",
        &[2, 3, 4, 5, 6, 7, 8, 9, 10],
        |n| apart(n, 20 * n - 1),
    ),
    growing(
        "parts and their contraries, 2 of each, 4 in all",
        "parts",
        &[1, 2, 3, 4, 5, 6, 7, 8, 9, 10],
        |n| contraries(n, 2, Some(4)),
    ),
    growing(
        "parts and their contraries, 2 of each, 3 in all",
        "parts",
        &[1, 2, 3, 4, 5, 6, 7, 8, 9, 10],
        |n| contraries(n, 2, Some(3)),
    ),
    growing(
        "parts and their contraries, 1 of each",
        "parts",
        &[1, 2, 3, 4, 5, 6, 7, 8, 9, 10],
        |n| contraries(n, 1, None),
    ),
    growing(
        "parts and their contraries, 1 of each, 2 in all",
        "parts",
        &[1, 2, 3, 4, 5, 6, 7, 8, 9, 10],
        |n| contraries(n, 1, Some(2)),
    ),
    growing(
        "parts and their contraries, 1 of each, 1 in all",
        "parts",
        &[1, 2, 3, 4, 5, 6, 7, 8, 9, 10],
        |n| contraries(n, 1, Some(1)),
    ),
    growing(
        "all four cases of each two of three facts, n in all",
        "n",
        &[3, 4],
        cases_of_two,
    ),
];

/// Parts that hold together or apart as they like; one successor may serve them all.
fn independent_parts(parts: usize, in_all: Option<u8>) -> Case {
    let mut t = Writer::new();
    let facts = facts(&mut t, parts);
    let mut wanted: Vec<usize> = facts.iter().map(|p| t.at_least(2, R, *p)).collect();
    if let Some(most) = in_all {
        let yes = t.truth();
        wanted.push(t.at_most(most, R, yes));
    }
    t.all(&wanted);
    decide(t)
}

/// Needs of different size on parts that may hold together.
fn stairs(parts: usize, in_all: usize) -> Case {
    let mut t = Writer::new();
    let facts = facts(&mut t, parts);
    let needs = facts.iter().enumerate();
    let mut wanted: Vec<usize> = needs.map(|(i, p)| t.at_least(i as u8 + 1, R, *p)).collect();
    let yes = t.truth();
    wanted.push(t.at_most(in_all as u8, R, yes));
    t.all(&wanted);
    decide(t)
}

/// No successor has two neighbours: an even ring takes two sorts of successors, an odd one three.
fn ring_apart(parts: usize, in_all: u8) -> Case {
    let mut t = Writer::new();
    let facts = facts(&mut t, parts);
    let mut wanted: Vec<usize> = facts.iter().map(|p| t.at_least(2, R, *p)).collect();
    let neighbours = (0..parts).map(|i| (facts[i], facts[(i + 1) % parts]));
    let pairs: Vec<usize> = neighbours.map(|(p, q)| t.and(p, q)).collect();
    let clash = t.any(&pairs);
    wanted.push(t.at_most(0, R, clash));
    let yes = t.truth();
    wanted.push(t.at_most(in_all, R, yes));
    t.all(&wanted);
    decide(t)
}

/// At most one successor has both of two neighbours.
fn ring_once(parts: usize, in_all: u8) -> Case {
    let mut t = Writer::new();
    let facts = facts(&mut t, parts);
    let mut wanted: Vec<usize> = facts.iter().map(|p| t.at_least(2, R, *p)).collect();
    for i in 0..parts {
        let two = t.and(facts[i], facts[(i + 1) % parts]);
        wanted.push(t.at_most(1, R, two));
    }
    let yes = t.truth();
    wanted.push(t.at_most(in_all, R, yes));
    t.all(&wanted);
    decide(t)
}

/// Parts are the edges of a graph without double edges, its corners are the successors: 3 corners have 3 edges, 4 have 6.
fn every_two(parts: usize, in_all: u8) -> Case {
    let mut t = Writer::new();
    let facts = facts(&mut t, parts);
    let mut wanted: Vec<usize> = facts.iter().map(|p| t.at_least(2, R, *p)).collect();
    for i in 0..parts {
        for j in i + 1..parts {
            let two = t.and(facts[i], facts[j]);
            wanted.push(t.at_most(1, R, two));
        }
    }
    let yes = t.truth();
    wanted.push(t.at_most(in_all, R, yes));
    t.all(&wanted);
    decide(t)
}

/// Every successor serves one part only.
fn apart(parts: usize, in_all: usize) -> Case {
    let mut t = Writer::new();
    let facts = facts(&mut t, parts);
    let two = two_at_once(&mut t, &facts);
    let mut wanted: Vec<usize> = facts.iter().map(|p| t.at_least(20, R, *p)).collect();
    wanted.push(t.at_most(0, R, two));
    let yes = t.truth();
    wanted.push(t.at_most(in_all as u8, R, yes));
    t.all(&wanted);
    decide(t)
}

/// Every choice of one from each pair is a largest set of parts: twice as many with every fact.
fn contraries(parts: usize, each: u8, in_all: Option<u8>) -> Case {
    let mut t = Writer::new();
    let facts = facts(&mut t, parts);
    let mut wanted = Vec::new();
    for fact in facts {
        let contrary = t.not(fact);
        wanted.push(t.at_least(each, R, fact));
        wanted.push(t.at_least(each, R, contrary));
    }
    if let Some(most) = in_all {
        let yes = t.truth();
        wanted.push(t.at_most(most, R, yes));
    }
    t.all(&wanted);
    decide(t)
}

/// One successor for each case of each pair of facts: four successors are enough, if the third fact is right.
fn cases_of_two(in_all: usize) -> Case {
    let mut t = Writer::new();
    let facts = facts(&mut t, 3);
    let contraries: Vec<usize> = facts.iter().map(|p| t.not(*p)).collect();
    let yes = t.truth();
    let mut wanted = vec![t.at_most(in_all as u8, R, yes)];
    for (i, j) in [(0, 1), (0, 2), (1, 2)] {
        for one in [facts[i], contraries[i]] {
            for other in [facts[j], contraries[j]] {
                let both = t.and(one, other);
                wanted.push(t.at_least(1, R, both));
            }
        }
    }
    t.all(&wanted);
    decide(t)
}
