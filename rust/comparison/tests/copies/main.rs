//! Document 02's P7, identical outputs, on the library and on the independent side. What is expected is worked out by hand beside
//! it. A link from world 0 by relation 7 to world 1 is `80 07 04` with one copy, and ends with 05, 06, 07 with two, three, four.

mod counts;
mod refused;

use hurnavis::{Fault, Writer};
use hurnavis_comparison::independent;

/// The words of the table, or the refusal, which both sides agree on. The words behind the table, and all after a refusal, are as
/// before.
fn board(table: &Writer, structure: &[u8]) -> Result<Vec<u64>, Fault> {
    let before = vec![0x0123_4567_89ab_cdef; table.count() + 3];
    let mut words = before.clone();
    let called = hurnavis::board(&table.bytes(), structure, &mut words);
    let written = called.map_or(0, |()| table.count());
    assert_eq!(words[written..], before[written..]);
    words.truncate(written);
    let library = called.map(|()| words);
    let independent = independent::board(&table.bytes(), structure, before.len());
    assert_eq!(library, independent, "{structure:x?}");
    library
}

/// A table of true, fact 1, and "at least" and "at most" each of the grades by relation 7, over true and over the fact: the first
/// stand at 2, 6, .. and behind each of them "at most" over true, then both over the fact.
fn grades(grades: &[u8]) -> Writer {
    let mut t = Writer::new();
    let parts = [t.truth(), t.fact(1)];
    for grade in grades {
        for part in parts {
            t.at_least(*grade, 7, part);
            t.at_most(*grade, 7, part);
        }
    }
    t
}

/// Whether at least, and at most, so many are counted at world 0 by relation 7 over true.
fn counted(structure: &[u8], grade: u8) -> (bool, bool) {
    let words = board(&grades(&[grade]), structure).unwrap();
    (words[2] & 1 == 1, words[3] & 1 == 1)
}

/// That exactly so many are counted at world 0 by relation 7 over true.
fn assert_count(structure: &[u8], count: u8) {
    assert_eq!(counted(structure, count), (true, true), "{structure:x?}");
    assert!(!counted(structure, count + 1).0, "{structure:x?}");
    if let Some(less) = count.checked_sub(1) {
        assert!(!counted(structure, less).1, "{structure:x?}");
    }
}
