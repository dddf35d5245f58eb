//! Inputs with faults: a good input in which something small is broken, and bytes without any sense.

use crate::families;
use crate::input::{self, Input};
use hurnavis_comparison::trial::damage::{bytes, flip, record, resize};
use hurnavis_comparison::xorshift::Xorshift;

/// A good input with one to three faults, any of which may turn out to be none.
pub fn damaged(random: &mut Xorshift) -> Input {
    let mut input = if random.percent(50) {
        families::pair(random)
    } else {
        families::entries(random)
    };
    input.family = "damaged";
    for _ in 0..random.pick(&[1, 1, 1, 2, 3]) {
        match random.below(9) {
            0 => flip(random, &mut input.table),
            1 => resize(random, &mut input.table, 4),
            2 => field(random, &mut input.table),
            3 => reference(random, &mut input.table),
            4 => flip(random, &mut input.structure),
            5 => resize(random, &mut input.structure, 3),
            6 => record(random, &mut input.structure),
            7 => input.model = entry(random, input.table.len() / 4),
            _ => input.answer = entry(random, input.table.len() / 4),
        }
    }
    input::lend(random, &mut input);
    // A damaged grade may ask for more words than a good one; more than these few would only cost time.
    if random.percent(30) {
        shorten_words(random, &mut input);
    }
    input
}

/// Bytes of any value. They must still be small where they happen to be accepted, so they are few.
pub fn noise(random: &mut Xorshift) -> Input {
    let table = bytes(random, 12);
    let structure = bytes(random, 12);
    let mut input = Input {
        family: "noise",
        table,
        structure,
        model: random.below(4),
        answer: random.below(4),
        board_words: 0,
        decide_words: 0,
        mark_words: 0,
    };
    input::lend(random, &mut input);
    input
}

/// Lends one word too few, none, or exactly enough to some of the calls.
pub fn shorten_words(random: &mut Xorshift, input: &mut Input) {
    let entries = input.table.len() / 4;
    let needed = input::needed(&input.table, &[input.model]);
    let for_both = input::needed(&input.table, &[input.model, input.answer]);
    input.board_words = border(random, entries);
    input.decide_words = border(random, needed);
    input.mark_words = border(random, for_both);
}

fn border(random: &mut Xorshift, needed: usize) -> usize {
    let less = needed.saturating_sub(1);
    random.pick(&[less, less, needed, needed + 3, needed / 2, 0])
}

/// Gives an entry a kind from 8 to 15, or a bit in some field.
fn field(random: &mut Xorshift, table: &mut [u8]) {
    if table.len() < 4 {
        return;
    }
    let at = 4 * random.below(table.len() / 4);
    if random.percent(50) {
        table[at] |= 0x80;
    } else {
        // Not into the grade of a counting entry: a great one there would only cost time.
        let counts = matches!(table[at] >> 4, 6 | 7);
        let bit = random.between(if counts { 8 } else { 0 }, 27);
        table[at + 3 - bit / 8] ^= 1 << (bit % 8);
    }
}

/// Lets an entry refer to itself or to a later one.
fn reference(random: &mut Xorshift, table: &mut [u8]) {
    if table.len() < 4 {
        return;
    }
    let number = random.below(table.len() / 4);
    let to = (number + random.pick(&[0, 0, 1, 5])).min(63);
    let at = 4 * number;
    let old = u32::from_be_bytes([table[at], table[at + 1], table[at + 2], table[at + 3]]);
    let shift = random.pick(&[14, 8]);
    let new = old & !(63 << shift) | (to as u32) << shift;
    table[at..at + 4].copy_from_slice(&new.to_be_bytes());
}

fn entry(random: &mut Xorshift, count: usize) -> usize {
    random.pick(&[count, count + 1, 63, 64, 255, 1 << 32, usize::MAX, 0])
}
