//! Small faults in tables and structures.

use crate::xorshift::Xorshift;

/// Up to so many bytes of any value.
pub fn bytes(random: &mut Xorshift, most: usize) -> Vec<u8> {
    let length = random.between(0, most);
    (0..length).map(|_| random.word() as u8).collect()
}

/// Changes one bit.
pub fn flip(random: &mut Xorshift, bytes: &mut [u8]) {
    if !bytes.is_empty() {
        let at = random.below(bytes.len());
        bytes[at] ^= 1 << random.below(8);
    }
}

/// Cuts bytes off, adds some, or goes over the greatest length. The unit is an entry's 4 bytes or a record's 3.
pub fn resize(random: &mut Xorshift, bytes: &mut Vec<u8>, unit: usize) {
    let length = bytes.len();
    let most = if unit == 4 { 256 } else { 3072 };
    let lengths = [
        0,
        1,
        length - length.min(1),
        length + 1,
        length - length.min(unit),
        length + unit,
        most,
        most + unit,
    ];
    bytes.resize(random.pick(&lengths), 0);
}

/// Changes a record's kind, its world, or a bit of its last byte: a zero bit, or one of the world or the copies of a link.
pub fn record(random: &mut Xorshift, structure: &mut [u8]) {
    if structure.len() < 3 {
        return;
    }
    let at = 3 * random.below(structure.len() / 3);
    match random.below(4) {
        0 => structure[at] = structure[at] & 0x3f | (random.below(4) as u8) << 6,
        1 => structure[at] = structure[at] & 0xc0 | random.below(64) as u8,
        2 => structure[at + 2] ^= 1 << random.below(8),
        _ => structure[0] = random.below(4) as u8,
    }
}
