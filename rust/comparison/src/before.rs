//! The board as the library filled it until change request P3, function by function: each entry
//! reads all records for itself. The checks of the structure stand apart, those of the table are
//! left out.
//!
//! It knows no copies. So it is the reading of the base, which stays that of structures whose links
//! have 0 in their last two bits (P7).

use crate::layout;
use hurnavis::Fault;

/// The fields of an entry.
#[derive(Clone, Copy)]
struct Entry {
    kind: u32,
    name: u32,
    first: u32,
    second: u32,
    grade: u32,
}

/// The fields of a record, the same for its three kinds.
#[derive(Clone, Copy)]
struct Record {
    kind: u32,
    world: u32,
    name: u32,
    to: u32,
}

/// The base's first fault of a structure: 6; then record by record 7, 8. A link had two zero bits.
pub fn check(structure: &[u8]) -> Result<(), Fault> {
    if structure.is_empty() || structure.len() > 3072 || structure.len() % 3 != 0 {
        return Err(Fault::StructureLength);
    }
    let worlds = worlds(structure) as u32;
    for i in 0..structure.len() / 3 {
        let r = record_at(structure, i);
        let zero_bits = match (i, r.kind) {
            (0, 0) => 0xffff,
            (1.., 1) => 0xff,
            (1.., 2) => 3,
            _ => return Err(Fault::Record),
        };
        if big_endian(structure, 3, i) & zero_bits != 0 {
            return Err(Fault::Record);
        }
        if r.world >= worlds || r.kind == 2 && r.to >= worlds {
            return Err(Fault::World);
        }
    }
    Ok(())
}

/// Fills the words of an accepted table and structure, entry by entry.
pub fn board(table: &[u8], structure: &[u8], words: &mut [u64]) {
    for i in 0..table.len() / 4 {
        words[i] = next_word(table, structure, words, i);
    }
}

/// The word of entry i, where the words before it are there already.
fn next_word(table: &[u8], structure: &[u8], words: &[u64], i: usize) -> u64 {
    let e = entry_at(table, i);
    let first = word_at(words, e.first as usize);
    let second = word_at(words, e.second as usize);
    entry_word(structure, e, first, second)
}

/// The word of an entry, from the words of its parts.
fn entry_word(structure: &[u8], e: Entry, first: u64, second: u64) -> u64 {
    let all = u64::MAX >> (64 - worlds(structure));
    match e.kind as u8 {
        layout::TRUE => all,
        layout::FACT => fact_word(structure, e.name),
        layout::NOT => all & !first,
        layout::AND => first & second,
        layout::OR => first | second,
        layout::AT_LEAST => counting_word(structure, e, first, true),
        layout::AT_MOST => counting_word(structure, e, first, false),
        _ => 0,
    }
}

/// The worlds where a counting entry holds.
fn counting_word(structure: &[u8], e: Entry, part: u64, least: bool) -> u64 {
    let to = successors(structure, e.name);
    let mut holds = 0;
    for (w, to) in to.iter().take(worlds(structure)).enumerate() {
        holds |= at_world(w, passes(to & part, e.grade, least));
    }
    holds
}

/// Whether the worlds counted are enough, or few enough, for the grade.
fn passes(counted: u64, grade: u32, least: bool) -> bool {
    let count = counted.count_ones();
    if least {
        grade <= count
    } else {
        count <= grade
    }
}

/// The word of one world, or of none.
fn at_world(w: usize, holds: bool) -> u64 {
    if holds {
        1 << w
    } else {
        0
    }
}

/// The worlds where a fact holds.
fn fact_word(structure: &[u8], name: u32) -> u64 {
    let mut held = 0;
    for i in 0..structure.len() / 3 {
        let r = record_at(structure, i);
        held |= one_world(r, 1, name, r.world);
    }
    held
}

/// For each world the worlds that links of a relation lead to from it.
fn successors(structure: &[u8], relation: u32) -> [u64; 64] {
    let mut to = [0; 64];
    for i in 0..structure.len() / 3 {
        let r = record_at(structure, i);
        to[r.world as usize] |= one_world(r, 2, relation, r.to);
    }
    to
}

/// The word of the world if the record is of the kind and has the name, and of no world if not.
fn one_world(r: Record, kind: u32, name: u32, world: u32) -> u64 {
    if r.kind == kind && r.name == name {
        1 << world
    } else {
        0
    }
}

fn worlds(structure: &[u8]) -> usize {
    record_at(structure, 0).world as usize + 1
}

fn entry_at(table: &[u8], i: usize) -> Entry {
    let word = big_endian(table, 4, i) as u32;
    Entry {
        kind: word >> 28 & 15,
        name: word >> 20 & 255,
        first: word >> 14 & 63,
        second: word >> 8 & 63,
        grade: word & 255,
    }
}

fn record_at(structure: &[u8], i: usize) -> Record {
    let word = big_endian(structure, 3, i) as u32;
    Record {
        kind: word >> 22 & 3,
        world: word >> 16 & 63,
        name: word >> 8 & 255,
        to: word >> 2 & 63,
    }
}

/// The number that the i-th so many bytes spell; a byte past the end counts as 0.
fn big_endian(bytes: &[u8], width: usize, i: usize) -> u64 {
    if bytes.len() / width < i {
        return 0;
    }
    let mut number = 0;
    for k in 0..width {
        number = number * 256 + u64::from(byte_at(bytes, width * i + k));
    }
    number
}

fn byte_at(bytes: &[u8], at: usize) -> u8 {
    if at < bytes.len() {
        bytes[at]
    } else {
        0
    }
}

fn word_at(words: &[u64], at: usize) -> u64 {
    if at < words.len() {
        words[at]
    } else {
        0
    }
}

#[cfg(test)]
mod tests {
    use super::*;

    #[test]
    fn the_checks_are_the_bases() {
        // A header of two worlds and a record behind it.
        let second = |record: [u8; 3]| check(&[[1, 0, 0], record].concat());
        assert_eq!(second([0x41, 9, 0]), Ok(()));
        assert_eq!(second([0x81, 9, 4]), Ok(()));
        assert_eq!(second([0x42, 9, 0]), Err(Fault::World));
        assert_eq!(second([0x80, 9, 8]), Err(Fault::World));
        // 7 comes before 8, for a link too.
        for zero_bit in [[0x42, 9, 0x80], [0x42, 9, 1], [0x82, 9, 2], [0x80, 9, 9]] {
            assert_eq!(second(zero_bit), Err(Fault::Record));
        }
        for kind in [[0, 0, 0], [0xc0, 0, 0]] {
            assert_eq!(second(kind), Err(Fault::Record));
        }
        for header in [[1, 0x80, 0], [1, 0, 1], [0x41, 9, 0], [0x81, 9, 0]] {
            assert_eq!(check(&header), Err(Fault::Record));
        }
        for length in [0, 2, 3075] {
            assert_eq!(check(&vec![0; length]), Err(Fault::StructureLength));
        }
    }
}
