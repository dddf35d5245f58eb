//! Inputs that are mostly refused: a good one in which something small is broken, and bytes without any sense.

use crate::families;
use crate::input::{lent, Input};
use hurnavis_comparison::trial::damage::{bytes, flip, record, resize};
use hurnavis_comparison::xorshift::Xorshift;

/// Zero bits of the header or of facts that are 1, one or some of them. The bits of links are let alone.
pub fn zero_bits(random: &mut Xorshift) -> Input {
    let mut input = families::any(random);
    input.family = "zero bits";
    let records = input.structure.chunks_exact_mut(3);
    let mut with_zeros: Vec<&mut [u8]> = records.filter(|record| record[0] >> 6 < 2).collect();
    for _ in 0..random.pick(&[1, 1, 1, 2, 5]) {
        let at = random.below(with_zeros.len());
        // The header has 16 of them, a fact 8.
        let byte = if at == 0 { random.between(1, 2) } else { 2 };
        with_zeros[at][byte] ^= 1 << random.below(8);
    }
    input
}

/// Fewer worlds in the header than the records name, so that worlds are outside, whatever the copies.
pub fn outside(random: &mut Xorshift) -> Input {
    let mut input = families::any(random);
    input.family = "outside";
    let worlds = input.structure[0] + 1;
    let less = random.pick(&[1, 1, 2, 5]).min(worlds - 1);
    input.structure[0] -= less;
    if random.percent(20) {
        // Another fault behind it or before it: the first record with a fault counts.
        record(random, &mut input.structure);
    }
    input
}

/// A good input with one to three faults, any of which may turn out to be none.
pub fn damaged(random: &mut Xorshift) -> Input {
    let mut input = families::any(random);
    input.family = "damaged";
    for _ in 0..random.pick(&[1, 1, 1, 2, 3]) {
        match random.below(9) {
            0..=2 => flip(random, &mut input.structure),
            3..=5 => record(random, &mut input.structure),
            6 => resize(random, &mut input.structure, 3),
            7 => flip(random, &mut input.table),
            _ => resize(random, &mut input.table, 4),
        }
    }
    input.lent = lent(random, input.table.len() / 4);
    input
}

/// Bytes of any value; often behind a header that is right.
pub fn noise(random: &mut Xorshift) -> Input {
    let mut input = families::any(random);
    input.family = "noise";
    input.structure = bytes(random, 12);
    if random.percent(70) {
        input.structure.splice(0..0, [0x3f, 0, 0]);
    }
    if random.percent(30) {
        input.table = bytes(random, 12);
    }
    input
}
