//! Odd cycles: problems that halves would solve and whole numbers do not.

use crate::case::Case;
use crate::families::{growing, Family};
use crate::numbers::Literals;
use crate::tables::{decide, facts, mark, two_at_once, R};
use hurnavis::Writer;

/// Odd grades have no solution, even ones have.
const ALL: &[usize] = &[
    1, 2, 3, 4, 5, 6, 7, 8, 9, 10, 11, 12, 15, 16, 31, 32, 63, 64, 84, 85, 254, 255,
];
const ODD: &[usize] = &[1, 3, 5, 7, 15, 31, 41, 63, 85];
const EVEN: &[usize] = &[2, 4, 6, 8, 16, 32, 40, 64, 84];

pub const CYCLES: &[Family] = &[
    growing("cycle of 3, exactly g at each corner", "g", ALL, |g| {
        cycle(3, g)
    }),
    growing("cycle of 5, exactly g at each corner", "g", ALL, |g| {
        cycle(5, g)
    }),
    growing("cycle of 7, exactly g at each corner, odd", "g", ODD, |g| {
        cycle(7, g)
    }),
    growing(
        "cycle of 7, exactly g at each corner, even",
        "g",
        EVEN,
        |g| cycle(7, g),
    ),
    growing("cycle of 3 by numbered sides, exactly g", "g", ALL, |g| {
        numbered(3, g)
    }),
    growing("cycle of 5 by numbered sides, exactly g", "g", ALL, |g| {
        numbered(5, g)
    }),
    growing(
        "cycle of 7 by numbered sides, exactly g, odd",
        "g",
        ODD,
        |g| numbered(7, g),
    ),
    growing(
        "cycle of 7 by numbered sides, exactly g, even",
        "g",
        EVEN,
        |g| numbered(7, g),
    ),
    growing(
        "cycle of 9 by numbered sides, exactly g, odd",
        "g",
        ODD,
        |g| numbered(9, g),
    ),
    growing(
        "cycle of 9 by numbered sides, exactly g, even",
        "g",
        EVEN,
        |g| numbered(9, g),
    ),
    growing(
        "two cycles of 3, g at each side at most, 3g in all",
        "g",
        ODD,
        |g| capped(&[3, 3], g, 3 * g),
    ),
    growing(
        "two cycles of 3, g at each side at most, 3g - 1 in all",
        "g",
        ODD,
        |g| capped(&[3, 3], g, 3 * g - 1),
    ),
    growing(
        "four cycles of 3, g at each side at most, 6g in all",
        "g",
        &[1, 3, 5, 7, 15, 31, 41],
        |g| capped(&[3, 3, 3, 3], g, 6 * g),
    ),
    growing(
        "cycles of 5 and 7, g at each side at most, 6g in all",
        "g",
        &[1, 3, 5, 7, 15, 31, 41],
        |g| capped(&[5, 7], g, 6 * g),
    ),
    growing(
        "cycles of 5 and 7, g at each side at most, 6g - 1 in all",
        "g",
        &[1, 3, 5, 7, 15, 31, 41],
        |g| capped(&[5, 7], g, 6 * g - 1),
    ),
];

pub const MARKS: &[Family] = &[growing(
    "mark of a cycle of 3 beside the same written from another corner",
    "g",
    ALL,
    mark_cycles,
)];

/// The successors are the sides of a polygon, each has one of k facts, and a corner has the two sides beside it: exactly
/// g of them, counted. With x sides of each sort, neighbouring sorts have g together; around an odd polygon that makes
/// all of them g / 2. So it is possible exactly for even g, although halves would always do.
fn cycle(k: usize, g: usize) -> Case {
    let mut t = Writer::new();
    write_cycle(&mut t, k, g, 0);
    decide(t)
}

fn write_cycle(t: &mut Writer, k: usize, g: usize, from: usize) -> usize {
    let mut sides = facts(t, k);
    sides.rotate_left(from);
    let two = two_at_once(t, &sides);
    let mut wanted = vec![t.at_most(0, R, two)];
    for i in 0..k {
        let corner = t.or(sides[i], sides[(i + 1) % k]);
        wanted.push(t.at_least(g as u8, R, corner));
        wanted.push(t.at_most(g as u8, R, corner));
    }
    t.all(&wanted)
}

/// The same polygon in fewer entries: a side is a number of two to four facts, neighbours differ in one of them, but for
/// the last and the first. A corner is what its two sides have in common.
fn numbered(k: usize, g: usize) -> Case {
    let mut t = Writer::new();
    let bits = usize::BITS - (k - 1).leading_zeros();
    let mut literals = Literals::write(&mut t, bits as usize);
    let code = |side: usize| side ^ (side >> 1);
    let mut wanted = Vec::new();
    for i in 0..k {
        let (one, other) = (code(i), code((i + 1) % k));
        let corner = if i + 1 < k {
            literals.numbers(&mut t, one, one ^ other)
        } else {
            let ends = [one, other].map(|side| literals.numbers(&mut t, side, 0));
            t.any(&ends)
        };
        wanted.push(t.at_least(g as u8, R, corner));
        wanted.push(t.at_most(g as u8, R, corner));
    }
    t.all(&wanted);
    decide(t)
}

/// Corners are facts, and a side has two of them: at most g successors on each side. All corners of an odd cycle of k
/// then have (k g - 1) / 2 at most for odd g, where halves would allow k g / 2; two cycles miss one together.
fn capped(cycles: &[usize], g: usize, in_all: usize) -> Case {
    let mut t = Writer::new();
    let corners = facts(&mut t, cycles.iter().sum());
    let mut wanted = Vec::new();
    let mut first = 0;
    for k in cycles {
        for i in 0..*k {
            let side = t.or(corners[first + i], corners[first + (i + 1) % k]);
            wanted.push(t.at_most(g as u8, R, side));
        }
        first += k;
    }
    let any = t.any(&corners);
    wanted.push(t.at_least(in_all as u8, R, any));
    t.all(&wanted);
    decide(t)
}

fn mark_cycles(g: usize) -> Case {
    let mut t = Writer::new();
    let model = write_cycle(&mut t, 3, g, 0);
    let answer = write_cycle(&mut t, 3, g, 1);
    mark(t, model, answer)
}
