//! The boards that are compared and measured.

use hurnavis::Writer;
use hurnavis_comparison::boards::{counting, sized, Board};
use hurnavis_comparison::layout::{self, Record};

/// Document 01's example build.
pub const EXAMPLE: [u8; 21] = [
    0x02, 0, 0, 0x41, 1, 0, 0x42, 1, 0, 0x42, 2, 0, 0x80, 7, 4, 0x80, 7, 8, 0x80, 7, 4,
];

/// Every board with its name.
pub fn all() -> Vec<(&'static str, Board)> {
    let many = counting(1024, 5);
    let with = |structure| Board {
        structure,
        ..many.clone()
    };
    let (ringed, header_only) = (with(ring()), with(one_world()));
    vec![
        ("63 counting entries, 64 worlds, 1,024 records", many),
        ("the same, the worlds in a ring", ringed),
        ("the same with 63 relations", counting(1024, 63)),
        ("63 counting entries, one world, one record", header_only),
        ("64 facts, 64 worlds, no links", facts()),
        ("eight relations, 64 worlds, three records", relations()),
        ("two entries, one world, one link", two(linked())),
        ("two entries, one world, one record", two(one_world())),
        ("one entry, one world, one record", one()),
        ("document 01's example build, five entries", example()),
    ]
}

/// The boards that are measured with more copies too: small ones, medium and full.
pub fn copied() -> Vec<(&'static str, Board)> {
    let full = counting(1024, 5);
    let ringed = Board {
        structure: ring(),
        ..full.clone()
    };
    vec![
        ("two entries, one world, one link", two(linked())),
        ("document 01's example build, five entries", example()),
        (
            "12 counting entries, three relations, 8 worlds, 40 records",
            sized(12, 8, 40, 3),
        ),
        (
            "63 counting entries, 64 worlds, 64 records",
            counting(64, 5),
        ),
        (
            "63 counting entries, 64 worlds, 256 records",
            counting(256, 5),
        ),
        ("63 counting entries, 64 worlds, 1,024 records", full),
        ("the same, the worlds in a ring", ringed),
        ("the same with one relation", counting(1024, 1)),
        // The most that a table can ask for are 63 of them.
        ("the same with 64 relations", counting(1024, 64)),
    ]
}

/// The worlds where fact 0 holds in the ring.
const FACT: u64 = 0x1e37_79b9_7f4a_7c35;

/// 64 worlds in a ring: relation r leads from each of them to the next r + 1. The program
/// `board_vectors` knows the words on it by another way.
fn ring() -> Vec<u8> {
    let mut records = vec![Record::Header(63)];
    records.extend((0..63).map(|i| Record::Fact {
        world: if FACT >> i & 1 == 1 { i } else { 5 },
        name: 0,
    }));
    for (from, relation) in (0..64).flat_map(|w| (0..5).map(move |r| (w, r))) {
        records.extend((1..=relation + 1).map(|step| Record::Link {
            from,
            relation,
            to: (from + step) % 64,
            copies: 1,
        }));
    }
    layout::pack_structure(&records)
}

/// A structure that is its header.
fn one_world() -> Vec<u8> {
    layout::pack_structure(&[Record::Header(0)])
}

/// Fact i at world i.
fn facts() -> Board {
    let mut t = Writer::new();
    let mut records = vec![Record::Header(63)];
    for i in 0..64 {
        t.fact(i);
        records.push(Record::Fact { world: i, name: i });
    }
    Board {
        table: t.bytes(),
        structure: layout::pack_structure(&records),
    }
}

/// Far more is asked than stated.
fn relations() -> Board {
    let mut t = Writer::new();
    let fact = t.fact(0);
    (0..8).for_each(|relation| {
        t.at_least(1, relation, fact);
    });
    let (fact, link) = (Record::Fact { world: 1, name: 0 }, link(7, 1));
    Board {
        table: t.bytes(),
        structure: layout::pack_structure(&[Record::Header(63), fact, link]),
    }
}

/// One world that leads to itself.
fn linked() -> Vec<u8> {
    layout::pack_structure(&[Record::Header(0), link(7, 0)])
}

fn link(relation: u8, to: u8) -> Record {
    Record::Link {
        from: 0,
        relation,
        to,
        copies: 1,
    }
}

fn two(structure: Vec<u8>) -> Board {
    let mut t = Writer::new();
    let yes = t.truth();
    t.at_least(1, 7, yes);
    Board {
        table: t.bytes(),
        structure,
    }
}

/// The least that a board can be.
fn one() -> Board {
    let mut t = Writer::new();
    t.truth();
    Board {
        table: t.bytes(),
        structure: one_world(),
    }
}

/// Document 01's M1 and M3, and both at once.
fn example() -> Board {
    let mut t = Writer::new();
    let (one, two) = (t.fact(1), t.fact(2));
    let m1 = t.at_least(2, 7, one);
    let m3 = t.at_most(1, 7, two);
    t.and(m1, m3);
    Board {
        table: t.bytes(),
        structure: EXAMPLE.to_vec(),
    }
}
