//! Bounds on a fact or two and on what they share, and bounds that were typed twice.

use crate::case::Case;
use crate::families::{growing, Family, GRADES};
use crate::tables::{decide, mark, without, R};
use hurnavis::Writer;

const SMALL: &[usize] = &[1, 2, 3, 4, 5, 6, 8, 10, 12, 16, 20, 24, 32, 40, 50, 63];
const NEEDS: &[usize] = &[12, 24, 48, 96, 150, 191, 200, 255];

pub const TYPED_TWICE: &[Family] = &[
    growing(
        "one need typed twice: the one without the other",
        "grade",
        GRADES,
        typed_twice,
    ),
    growing(
        "need and limit typed twice: the one without the other",
        "grade",
        GRADES,
        pair_typed_twice,
    ),
];

pub const OVERLAPS: &[Family] = &[
    growing(
        "overlap: 3k of p, 3k of q, 4k in all, 2k - 1 of both",
        "k",
        SMALL,
        |k| overlap(k, 2 * k - 1),
    ),
    growing(
        "overlap: 3k of p, 3k of q, 4k in all, 2k of both",
        "k",
        SMALL,
        |k| overlap(k, 2 * k),
    ),
    growing(
        "overlap: n of p, n of q, 4n / 3 or 255 in all, one too few of both",
        "n",
        NEEDS,
        |n| share(n, 1),
    ),
    growing(
        "overlap: n of p, n of q, 4n / 3 or 255 in all, just enough of both",
        "n",
        NEEDS,
        |n| share(n, 0),
    ),
    growing(
        "overlap of three facts: 2k of each, 3k in all, k - 1 of each two",
        "k",
        &[1, 2, 3, 4, 5, 8, 16, 32, 64, 85],
        |k| three(k, k - 1),
    ),
    growing(
        "overlap of three facts: 2k of each, 3k in all, k of each two",
        "k",
        &[1, 2, 3, 4, 5, 8, 16, 32, 64, 85],
        |k| three(k, k),
    ),
];

pub const MARKS: &[Family] = &[
    growing("mark of a need typed twice", "grade", GRADES, |grade| {
        let (t, one, other) = need_twice(grade);
        mark(t, one, other)
    }),
    growing(
        "mark of a need beside a limit one lower",
        "grade",
        &[2, 4, 8, 16, 32, 64, 128, 255],
        mark_one_lower,
    ),
    growing(
        "mark of an overlap (2k of both) typed in another order",
        "k",
        SMALL,
        |k| mark_overlaps(k, 2 * k),
    ),
    growing(
        "mark of an overlap (2k of both) beside one with 2k - 1",
        "k",
        SMALL,
        |k| mark_overlaps(k, 2 * k - 1),
    ),
];

fn need_twice(grade: usize) -> (Writer, usize, usize) {
    let mut t = Writer::new();
    let need = |t: &mut Writer| {
        let fact = t.fact(1);
        t.at_least(grade as u8, R, fact)
    };
    let (one, other) = (need(&mut t), need(&mut t));
    (t, one, other)
}

fn typed_twice(grade: usize) -> Case {
    let (t, one, other) = need_twice(grade);
    without(t, one, other)
}

/// At least so many of p, at most so many of q, and the same again.
fn pair_typed_twice(grade: usize) -> Case {
    let mut t = Writer::new();
    let pair = |t: &mut Writer| {
        let (p, q) = (t.fact(1), t.fact(2));
        let wanted = [t.at_least(grade as u8, R, p), t.at_most(grade as u8, R, q)];
        t.all(&wanted)
    };
    let (one, other) = (pair(&mut t), pair(&mut t));
    without(t, one, other)
}

/// 3k and 3k in 4k share 2k at least.
fn overlap(k: usize, both: usize) -> Case {
    let mut t = Writer::new();
    write_overlap(&mut t, [1, 2], [3 * k, 4 * k, both]);
    decide(t)
}

/// n and n in 4n / 3 share 2n - 4n / 3 at least; the grade ends at 255.
fn share(n: usize, missing: usize) -> Case {
    let in_all = (4 * n / 3).min(255);
    let mut t = Writer::new();
    write_overlap(&mut t, [1, 2], [n, in_all, 2 * n - in_all - missing]);
    decide(t)
}

/// The bounds are those of each fact, of all and of both.
fn write_overlap(t: &mut Writer, names: [u8; 2], bounds: [usize; 3]) -> usize {
    let [each, in_all, both] = bounds.map(|bound| bound as u8);
    let (p, q) = (t.fact(names[0]), t.fact(names[1]));
    let p_and_q = t.and(p, q);
    let yes = t.truth();
    let wanted = [
        t.at_least(each, R, p),
        t.at_least(each, R, q),
        t.at_most(in_all, R, yes),
        t.at_most(both, R, p_and_q),
    ];
    t.all(&wanted)
}

/// 2k of each of three facts in 3k: every successor has two of them on the average, so the pairs add up to 3k.
fn three(k: usize, pair: usize) -> Case {
    let mut t = Writer::new();
    let facts = [t.fact(0), t.fact(1), t.fact(2)];
    let yes = t.truth();
    let mut wanted = vec![t.at_most(3 * k as u8, R, yes)];
    for i in 0..3 {
        let two = t.and(facts[i], facts[(i + 1) % 3]);
        wanted.push(t.at_least(2 * k as u8, R, facts[i]));
        wanted.push(t.at_most(pair as u8, R, two));
    }
    t.all(&wanted);
    decide(t)
}

/// At least n, beside not at most n - 2: the answer asks for one less.
fn mark_one_lower(grade: usize) -> Case {
    let (mut t, one, _) = need_twice(grade);
    let fact = t.fact(1);
    let few = t.at_most(grade as u8 - 2, R, fact);
    let lower = t.not(few);
    mark(t, one, lower)
}

/// The overlap that is possible beside one with another bound and the facts in another order.
fn mark_overlaps(k: usize, both: usize) -> Case {
    let mut t = Writer::new();
    let model = write_overlap(&mut t, [1, 2], [3 * k, 4 * k, 2 * k]);
    let answer = write_overlap(&mut t, [2, 1], [3 * k, 4 * k, both]);
    mark(t, model, answer)
}
