//! Boards, and decisions in which the work is done at one world: choices.

use crate::case::{Case, Question};
use crate::families::{growing, Family};
use crate::numbers::Literals;
use crate::tables::{decide, facts, R};
use hurnavis::Writer;
use hurnavis_comparison::boards;
use hurnavis_comparison::layout::MOST_COPIES;

pub const BOARDS: &[Family] = &[
    growing(
        "board of 63 counting entries and 64 worlds",
        "records",
        RECORDS,
        |records| board(records, 1),
    ),
    growing(
        "board of 63 counting entries and 64 worlds, 4 copies of each link",
        "records",
        RECORDS,
        |records| board(records, MOST_COPIES),
    ),
];

/// A tenth of them facts.
const RECORDS: &[usize] = &[64, 256, 1024];

pub const CHOICES: &[Family] = &[
    growing(
        "one of k facts, but none of them",
        "k",
        &[1, 2, 4, 8, 12, 16],
        long_or,
    ),
    growing(
        "k choices before a clash in a successor",
        "k",
        &[1, 2, 4, 6, 8, 10, 12, 14, 15],
        choices,
    ),
    growing(
        "k choices that share facts before a clash in a successor",
        "k",
        &[1, 2, 4, 6, 8, 10, 12, 14, 16, 18, 20],
        neighbours,
    ),
    growing(
        "k choices before an overlap with one too few of both",
        "k",
        &[1, 2, 4, 6, 8, 10, 12, 13],
        choices_before_overlap,
    ),
    growing(
        "k choices between countings, each with a clash",
        "k",
        &[1, 2, 4, 6, 8, 9],
        counted_choices,
    ),
    growing(
        "k choices between 2 of parts that exclude each other, one too few in all",
        "k",
        &[1, 2, 3, 4, 5, 6, 7],
        |k| choices_apart(k, 2),
    ),
    growing(
        "k choices between 18 of parts that exclude each other, one too few in all",
        "k",
        &[1, 2, 3, 4, 5, 6, 7],
        |k| choices_apart(k, 18),
    ),
];

/// Five relations.
fn board(records: usize, copies: u8) -> Case {
    let board = boards::counting(records, 5).with_copies(copies);
    Case {
        table: board.table,
        question: Question::Board(board.structure),
    }
}

fn long_or(k: usize) -> Case {
    let mut t = Writer::new();
    let facts = facts(&mut t, k);
    let mut wanted = vec![t.any(&facts)];
    wanted.extend(facts.iter().map(|fact| t.not(*fact)));
    t.all(&wanted);
    decide(t)
}

/// None of the choices matters: the clash is in a successor that the world needs anyway.
fn choices(k: usize) -> Case {
    let mut t = Writer::new();
    let no = t.falsity();
    let mut wanted = vec![t.at_least(1, R, no)];
    push_choices(&mut t, &mut wanted, k);
    t.all(&wanted);
    decide(t)
}

fn push_choices(t: &mut Writer, wanted: &mut Vec<usize>, k: usize) {
    for i in 0..k {
        let either = [t.fact(2 * i as u8), t.fact(2 * i as u8 + 1)];
        wanted.push(t.any(&either));
    }
}

/// A fact stands in two choices: three entries for a choice.
fn neighbours(k: usize) -> Case {
    let mut t = Writer::new();
    let no = t.falsity();
    let mut wanted = vec![t.at_least(1, R, no)];
    let facts = facts(&mut t, k + 1);
    wanted.extend((0..k).map(|i| t.or(facts[i], facts[i + 1])));
    t.all(&wanted);
    decide(t)
}

/// The clash is that 12 and 12 in 16 share 8.
fn choices_before_overlap(k: usize) -> Case {
    let mut t = Writer::new();
    let (p, q) = (t.fact(254), t.fact(255));
    let both = t.and(p, q);
    let yes = t.truth();
    let mut wanted = vec![
        t.at_least(12, R, p),
        t.at_least(12, R, q),
        t.at_most(16, R, yes),
        t.at_most(7, R, both),
    ];
    push_choices(&mut t, &mut wanted, k);
    t.all(&wanted);
    decide(t)
}

/// Each choice is between two needs that the limit on their parts together refuses: 3 of p or 3 of q, 2 of either.
fn counted_choices(k: usize) -> Case {
    let mut t = Writer::new();
    let facts = facts(&mut t, k + 1);
    let either = t.any(&facts);
    let mut wanted: Vec<usize> = Vec::new();
    for i in 0..k {
        let needs = [t.at_least(3, R, facts[i]), t.at_least(3, R, facts[i + 1])];
        wanted.push(t.any(&needs));
    }
    wanted.push(t.at_most(2, R, either));
    t.all(&wanted);
    decide(t)
}

/// Whichever part is chosen, each choice takes g successors that serve no other; that k g - 1 are too few is seen after
/// the last choice only.
fn choices_apart(k: usize, g: usize) -> Case {
    let mut t = Writer::new();
    let bits = usize::BITS - (2 * k - 1).leading_zeros();
    let mut literals = Literals::write(&mut t, bits as usize);
    let mut wanted = Vec::new();
    for i in 0..k {
        let parts = [2 * i, 2 * i + 1].map(|number| literals.numbers(&mut t, number, 0));
        let needs = parts.map(|part| t.at_least(g as u8, R, part));
        wanted.push(t.any(&needs));
    }
    let yes = t.truth();
    wanted.push(t.at_most((k * g - 1) as u8, R, yes));
    t.all(&wanted);
    decide(t)
}
