//! The examples of the documents, on the library and on the independent side.

use hurnavis::{Fault, Mark, StructureWriter, Writer};
use hurnavis_comparison::independent::realisable::Limits;
use hurnavis_comparison::independent::{self, refusals};
use hurnavis_comparison::layout::{self, Entry, Record};

const R: u8 = 0;

/// Both sides' decision on the last entry.
fn decision(table: &Writer) -> bool {
    let bytes = table.bytes();
    let entry = table.count() - 1;
    let needed = hurnavis::work_words(&bytes, entry, entry).unwrap();
    let mut words = vec![u64::MAX; needed];
    let library = hurnavis::decide(&bytes, entry, &mut words).unwrap();
    assert!(words.iter().all(|w| *w == 0));
    let entries = refusals::table(&bytes).unwrap();
    let independent = independent::satisfiable(&entries, entry, Limits::LARGE);
    assert_eq!(independent, Some(library));
    library
}

/// The mark, which both sides agree on.
fn marked(table: &Writer, model: usize, answer: usize) -> Mark {
    let bytes = table.bytes();
    let entries = refusals::table(&bytes).unwrap();
    let mark = independent::compared(&entries, model, answer, Limits::LARGE).unwrap();
    let needed = hurnavis::work_words(&bytes, model, answer).unwrap();
    let mut words = vec![u64::MAX; needed];
    assert_eq!(hurnavis::mark(&bytes, model, answer, &mut words), Ok(mark));
    mark
}

#[test]
fn the_marked_examples() {
    let structure = [
        0x02, 0, 0, 0x41, 1, 0, 0x42, 1, 0, 0x42, 2, 0, 0x80, 7, 4, 0x80, 7, 8, 0x80, 7, 4,
    ];
    let mut t = Writer::new();
    let one = t.fact(1);
    let two = t.fact(2);
    let no = t.falsity();
    let yes = t.truth();
    let not_two = t.not(two);
    let m1 = t.at_least(2, 7, one);
    let m2 = t.at_least(3, 7, one);
    let m3 = t.at_most(1, 7, two);
    let m4 = t.at_most(0, 7, two);
    let m5 = t.at_least(0, 7, no);
    let m6 = t.not(m1);
    let m7 = t.at_least(1, 8, one);
    let m8 = t.and(one, not_two);
    let m9 = t.at_most(0, 7, yes);
    let table = t.bytes();
    let mut board = vec![0; t.count() + 1];
    board[t.count()] = 99;
    hurnavis::board(&table, &structure, &mut board).unwrap();
    let expected = [
        (m1, 1),
        (m2, 0),
        (m3, 7),
        (m4, 6),
        (m5, 7),
        (m6, 6),
        (m7, 0),
        (m8, 2),
        (m9, 6),
    ];
    for (entry, word) in expected {
        assert_eq!(board[entry], word);
    }
    assert_eq!(board[t.count()], 99);
    let independent = independent::board(&table, &structure, t.count()).unwrap();
    assert_eq!(board[..t.count()], independent);
}

#[test]
fn at_least_some_of_false() {
    for (grade, possible) in [(1, false), (0, true)] {
        let mut t = Writer::new();
        let no = t.falsity();
        t.at_least(grade, R, no);
        assert_eq!(decision(&t), possible);
    }
}

#[test]
fn p_and_not_p_need_two_successors() {
    let mut t = Writer::new();
    let p = t.fact(1);
    let not_p = t.not(p);
    let yes = t.truth();
    let wanted = [
        t.at_least(1, R, p),
        t.at_least(1, R, not_p),
        t.at_most(1, R, yes),
    ];
    t.all(&wanted);
    assert!(!decision(&t));
}

#[test]
fn three_and_three_in_four() {
    for (both, possible) in [(1, false), (2, true)] {
        let mut t = Writer::new();
        let p = t.fact(1);
        let q = t.fact(2);
        let p_and_q = t.and(p, q);
        let yes = t.truth();
        let wanted = [
            t.at_least(3, R, p),
            t.at_least(3, R, q),
            t.at_most(4, R, yes),
            t.at_most(both, R, p_and_q),
        ];
        t.all(&wanted);
        assert_eq!(decision(&t), possible);
    }
}

#[test]
fn more_than_255_successors() {
    let mut t = Writer::new();
    let yes = t.truth();
    let few = t.at_most(255, R, yes);
    t.not(few);
    assert!(decision(&t));
}

#[test]
fn not_at_least_0_is_false() {
    let mut t = Writer::new();
    let p = t.fact(0);
    let any = t.at_least(0, R, p);
    t.not(any);
    assert!(!decision(&t));
}

/// Source 001, section 3.1: the published procedure calls this one satisfiable.
#[test]
fn the_counterexample() {
    let mut t = Writer::new();
    let p1 = t.fact(1);
    let p2 = t.fact(2);
    let not_p2 = t.not(p2);
    let wanted = [
        t.at_least(3, R, p1),
        t.at_most(1, R, not_p2),
        t.at_most(1, R, p2),
    ];
    t.all(&wanted);
    assert!(!decision(&t));
}

#[test]
fn relations_do_not_bind_each_other() {
    let mut t = Writer::new();
    let p = t.fact(1);
    let yes = t.truth();
    let some = t.at_least(2, 0, p);
    let none = t.at_most(0, 255, yes);
    t.and(some, none);
    assert!(decision(&t));
}

#[test]
fn an_impossible_depth_is_found_below() {
    let mut t = Writer::new();
    let p = t.fact(1);
    let not_p = t.not(p);
    let clash = t.and(p, not_p);
    let below = t.at_least(1, R, clash);
    let either = t.or(below, below);
    t.at_least(1, 3, either);
    assert!(!decision(&t));
}

#[test]
fn one_fact_at_the_border_of_its_words() {
    let table = [0x20, 0x10, 0, 0];
    let mut words = [7; 48];
    assert_eq!(
        hurnavis::decide(&table, 0, &mut words[..47]),
        Err(Fault::Space)
    );
    assert_eq!(words, [7; 48]);
    assert_eq!(hurnavis::decide(&table, 0, &mut words), Ok(true));
    assert_eq!(words, [0; 48]);
}

#[test]
fn the_longest_tables() {
    let fact = [0x20, 0x10, 0, 0];
    assert_eq!(hurnavis::check_table(&fact.repeat(64)), Ok(()));
    assert_eq!(
        hurnavis::check_table(&fact.repeat(65)),
        Err(Fault::TableLength)
    );
    let mut chain = Writer::new();
    let mut last = chain.fact(0);
    for _ in 0..63 {
        last = chain.at_least(1, R, last);
    }
    assert_eq!(hurnavis::check_table(&chain.bytes()), Ok(()));
    let entries = refusals::table(&chain.bytes()).unwrap();
    assert_eq!(layout::depths(&entries)[63], 63);
    assert!(decision(&chain));
}

#[test]
fn the_mark_sheet() {
    let mut t = Writer::new();
    let p = t.fact(1);
    let two = t.at_least(2, 7, p);
    let three = t.at_least(3, 7, p);
    assert_eq!(marked(&t, two, three), Mark::Narrower);
    assert_eq!(marked(&t, three, two), Mark::Wider);
    assert_eq!(marked(&t, two, two), Mark::Equal);
    assert_eq!(marked(&t, p, two), Mark::Crossing);
}

/// Document 02, P2: also beside an impossible model.
#[test]
fn an_impossible_answer_has_a_mark_of_its_own() {
    let mut t = Writer::new();
    let p = t.fact(1);
    let no = t.falsity();
    let none = t.at_least(1, R, no);
    assert_eq!(marked(&t, p, none), Mark::Impossible);
    assert_eq!(marked(&t, none, p), Mark::Wider);
    assert_eq!(marked(&t, no, none), Mark::Impossible);
    assert_eq!(marked(&t, none, none), Mark::Impossible);
}

/// The package's writers beside the packing that is written here a second time.
#[test]
fn the_writers_write_the_format() {
    let mut t = Writer::new();
    t.fact(255);
    t.not(0);
    t.or(1, 0);
    t.at_most(254, 9, 2);
    let entries = [
        (2, 255, 0, 0, 0),
        (3, 0, 0, 0, 0),
        (5, 0, 1, 0, 0),
        (7, 9, 2, 0, 254),
    ];
    let entries = entries.map(|(kind, name, first, second, grade)| Entry {
        kind,
        name,
        first,
        second,
        grade,
    });
    assert_eq!(layout::unpack_table(&t.bytes()), entries);

    let mut s = StructureWriter::new(64);
    s.fact(63, 200);
    s.link(62, 201, 61);
    (1..=4).for_each(|copies| s.link_copies(60, 202, 59, copies));
    let link = |(from, relation, to), copies| Record::Link {
        from,
        relation,
        to,
        copies,
    };
    let (world, name) = (63, 200);
    let mut records = vec![Record::Header(63), Record::Fact { world, name }];
    records.push(link((62, 201, 61), 1));
    records.extend((1..=4).map(|copies| link((60, 202, 59), copies)));
    assert_eq!(s.bytes(), layout::pack_structure(&records));
}
