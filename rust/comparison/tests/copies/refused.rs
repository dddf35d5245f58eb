//! What is refused: zero bits of the header and of facts, no bits of links; worlds and words as before.

use crate::{board, grades};
use hurnavis::Fault;

#[test]
fn no_7_for_the_bits_of_links() {
    for record in [[0x80, 0, 0], [0x80, 255, 0], [0x81, 7, 4], [0xbf, 7, 0xfc]] {
        for less_1 in 0..4 {
            let structure = [0x3f, 0, 0, record[0], record[1], record[2] | less_1];
            assert!(board(&grades(&[1]), &structure).is_ok());
        }
    }
}

#[test]
fn a_fact_has_8_zero_bits() {
    // Every value of its last byte: 0 is taken, all others are 7. So also if the world is outside: 7 comes before 8.
    for last in 0..=255 {
        let fact = |world: u8| board(&grades(&[]), &[1, 0, 0, 0x40 | world, 1, last]);
        let refused = (last > 0).then_some(Fault::Record);
        assert_eq!(fact(1).err(), refused);
        assert_eq!(fact(2).err(), refused.or(Some(Fault::World)));
    }
}

#[test]
fn the_header_has_16_zero_bits() {
    for bit in 0..16 {
        let [high, low] = (1_u16 << bit).to_be_bytes();
        let refused = Err(Fault::Record);
        assert_eq!(board(&grades(&[]), &[0, high, low]), refused);
        assert_eq!(board(&grades(&[]), &[0x3f, high, low]), refused);
        // Also before a link with copies, and before one that leads outside.
        assert_eq!(board(&grades(&[]), &[0, high, low, 0x80, 7, 3]), refused);
        assert_eq!(board(&grades(&[]), &[0, high, low, 0x80, 7, 7]), refused);
    }
}

#[test]
fn kinds_are_7_as_before() {
    // A link first, a header later, kind 3, each with every value of the last two bits.
    for less_1 in 0..4 {
        for structure in [
            [0x80, 7, less_1, 0x80, 7, less_1],
            [0, 0, 0, 0, 0, less_1],
            [0, 0, 0, 0xc0, 7, less_1],
        ] {
            assert_eq!(board(&grades(&[]), &structure), Err(Fault::Record));
        }
    }
}

#[test]
fn worlds_outside_are_8_whatever_the_copies() {
    for less_1 in 0..4 {
        // Two worlds: a link from world 2 or 63, or to world 2 or 63, has none there.
        for (from, to) in [(2, 0), (63, 0), (0, 2), (0, 63), (2, 2)] {
            let link = [0x80 | from, 7, to << 2 | less_1];
            let structure = [[1, 0, 0], link].concat();
            assert_eq!(board(&grades(&[]), &structure), Err(Fault::World));
            // The first record with a fault counts: a kind 3 behind it is not looked at, one before it is.
            let [behind, in_front] = [[link, [0xc0, 0, 0]], [[0xc0, 0, 0], link]];
            let with = |records: [[u8; 3]; 2]| [&[1, 0, 0], records.as_flattened()].concat();
            assert_eq!(board(&grades(&[]), &with(behind)), Err(Fault::World));
            assert_eq!(board(&grades(&[]), &with(in_front)), Err(Fault::Record));
        }
        // Worlds 0 and 1 are there.
        let inside = [1, 0, 0, 0x81, 7, 4 | less_1];
        assert!(board(&grades(&[]), &inside).is_ok());
    }
}

/// Document 01's need of one word for each entry is the same with copies.
#[test]
fn fewer_words_than_entries_are_10() {
    let table = grades(&[1]).bytes();
    let structure = [1, 0, 0, 0x80, 7, 7];
    let mut words = [5; 6];
    let refused = hurnavis::board(&table, &structure, &mut words[..5]);
    assert_eq!((refused, words), (Err(Fault::Space), [5; 6]));
    // World outside and too few words: 8 comes before 10.
    let refused = hurnavis::board(&table, &[0, 0, 0, 0x80, 7, 7], &mut words[..5]);
    assert_eq!((refused, words), (Err(Fault::World), [5; 6]));
}
