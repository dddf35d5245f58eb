//! What is counted: copies, of a repeated link the greatest number.

use crate::{assert_count, board, counted, grades};
use hurnavis::{Mark, StructureWriter, Writer};
use hurnavis_comparison::independent::{self, realisable::Limits, refusals};

#[test]
fn the_last_two_bits_are_copies_less_1() {
    // 04 has bits 00 at its end, 1 copy; 05 has 01, 2 copies; 06 has 10, 3; 07 has 11, 4.
    for (last, copies) in [(0x04, 1), (0x05, 2), (0x06, 3), (0x07, 4)] {
        assert_count(&[1, 0, 0, 0x80, 7, last], copies);
    }
    // From world 0 to itself: to is 0, so the last byte is the copies less 1 alone.
    for (last, copies) in [(0, 1), (1, 2), (2, 3), (3, 4)] {
        assert_count(&[0, 0, 0, 0x80, 7, last], copies);
    }
    // From world 0 to world 63: 3f shifted by two is fc.
    for (last, copies) in [(0xfc, 1), (0xfd, 2), (0xfe, 3), (0xff, 4)] {
        assert_count(&[0x3f, 0, 0, 0x80, 7, last], copies);
    }
}

#[test]
fn the_greatest_number_counts() {
    // Two copies, then four: four, where the sum is six, the least and the first two.
    assert_count(&[1, 0, 0, 0x80, 7, 5, 0x80, 7, 7], 4);
    // The other order: four, where the last is two.
    assert_count(&[1, 0, 0, 0x80, 7, 7, 0x80, 7, 5], 4);
    // One and one: one, where the sum is two. Two and two: two.
    assert_count(&[1, 0, 0, 0x80, 7, 4, 0x80, 7, 4], 1);
    assert_count(&[1, 0, 0, 0x80, 7, 5, 0x80, 7, 5], 2);
    // Three in the middle of one and two: three.
    assert_count(&[1, 0, 0, 0x80, 7, 4, 0x80, 7, 6, 0x80, 7, 5], 3);
    // Two and three, bits 01 and 10: three, where the bits joined are 11, four copies.
    assert_count(&[1, 0, 0, 0x80, 7, 5, 0x80, 7, 6], 3);
    assert_count(&[1, 0, 0, 0x80, 7, 6, 0x80, 7, 5], 3);
}

/// Every sequence of one to four numbers, for one link: the count is the greatest of them.
#[test]
fn the_greatest_number_counts_in_every_order() {
    for length in 1..=4 {
        for number in 0..1_u32 << (2 * length) {
            let less_1 = (0..length).map(|i| (number >> (2 * i) & 3) as u8);
            let mut structure = vec![1, 0, 0];
            less_1
                .clone()
                .for_each(|l| structure.extend([0x80, 7, 4 | l]));
            assert_count(&structure, less_1.max().unwrap() + 1);
        }
    }
}

#[test]
fn only_the_same_link_is_repeated() {
    // World 0 leads by 7 to world 1 with two copies and to world 2 with one: 2 + 1. That it leads to world 1 by 6 and by 8 with
    // four, that worlds 1 and 2 lead back with four, and that world 1 leads to itself with four, is other links' affair.
    let structure = [
        2, 0, 0, 0x80, 7, 5, 0x80, 7, 8, 0x80, 6, 7, 0x80, 8, 7, 0x81, 7, 3, 0x82, 7, 3, 0x81, 7, 7,
    ];
    assert_count(&structure, 3);
    // At least 4 by 7 over true: world 1, with 4 + 4, and world 2, with 4. At most 4: worlds 0 and 2. At least 8: world 1.
    let words = board(&grades(&[4, 8]), &structure).unwrap();
    assert_eq!((words[2], words[3], words[6]), (0b110, 0b101, 0b010));
}

#[test]
fn copies_and_not_worlds_are_counted() {
    // World 0 leads to worlds 1 to 3 with 4, 3 and 2 copies; fact 1 holds at worlds 1 and 3. In all 4 + 3 + 2 = 9, where 3 worlds
    // are led to; to the fact 4 + 2 = 6, where it is 2 worlds.
    let structure = [
        3, 0, 0, 0x41, 1, 0, 0x43, 1, 0, 0x80, 7, 7, 0x80, 7, 0x0a, 0x80, 7, 0x0d,
    ];
    let words = board(&grades(&[9, 10, 8, 6, 7, 5]), &structure).unwrap();
    // True at all four worlds, the fact at worlds 1 and 3.
    assert_eq!(words[..2], [0b1111, 0b1010]);
    // From worlds 1 to 3 nothing leads anywhere: they have "at most" everything, and "at least" none of these grades.
    let [yes, no] = [0b0001, 0b0000];
    let [most, fewer] = [0b1111, 0b1110];
    // At least 9, at most 9 over true; over the fact there are 6, so not at least 9.
    assert_eq!(words[2..6], [yes, most, no, most]);
    // 10: not at least, at most.
    assert_eq!(words[6..10], [no, most, no, most]);
    // 8: at least, but not at most.
    assert_eq!(words[10..14], [yes, fewer, no, most]);
    // 6: of true there are more than 6; of the fact at least and at most.
    assert_eq!(words[14..18], [yes, fewer, yes, most]);
    // 7: of the fact not at least, but at most. 5: of the fact at least, but not at most.
    assert_eq!(words[18..22], [yes, fewer, no, most]);
    assert_eq!(words[22..26], [yes, fewer, yes, fewer]);
}

#[test]
fn grade_0_is_as_it_was() {
    // At least 0 holds everywhere, at most 0 where no link leads: not at world 0, whatever the copies; over the fact, which holds
    // nowhere, everywhere.
    for last in 4..8 {
        let words = board(&grades(&[0]), &[1, 0, 0, 0x80, 7, last]).unwrap();
        assert_eq!(words, [0b11, 0, 0b11, 0b10, 0b11, 0b11]);
    }
}

/// 64 worlds, and the copies that lead from world 0 to each of them.
fn to_all(copies: impl Fn(usize) -> usize) -> Vec<u8> {
    let mut structure = StructureWriter::new(64);
    (0..64).for_each(|to| structure.link_copies(0, 7, to, copies(to)));
    structure.bytes()
}

#[test]
fn counts_up_to_256_against_grade_255() {
    // 64 x 4 = 256: at least 255, and not at most 255. In 8 bits it would be 0.
    assert_eq!(counted(&to_all(|_| 4), 255), (true, false));
    // One copy less: 255, at least and at most.
    let one_less = to_all(|to| if to == 40 { 3 } else { 4 });
    assert_eq!(counted(&one_less, 255), (true, true));
    assert_eq!(counted(&one_less, 254), (true, false));
    // Two less: 254, not at least 255.
    let two_less = to_all(|to| if to == 0 { 2 } else { 4 });
    assert_eq!(counted(&two_less, 255), (false, true));
    assert_eq!(counted(&two_less, 254), (true, true));
    // 64 x 1, 64 x 2 and 64 x 3 are 64, 128 and 192.
    for (copies, sum) in [(1, 64), (2, 128), (3, 192)] {
        assert_count(&to_all(|_| copies), sum);
    }
}

#[test]
fn at_most_255_is_refuted_by_256_copies_only() {
    // "Not at most 255" asks for 256: all four copies of all 64 links.
    let mut t = Writer::new();
    let yes = t.truth();
    let few = t.at_most(255, 7, yes);
    t.not(few);
    assert_eq!(board(&t, &to_all(|_| 4)).unwrap()[2], 1);
    assert_eq!(board(&t, &to_all(|to| 4 - to / 63)).unwrap()[2], 0);
}

#[test]
fn document_01s_example_with_copies() {
    // Worlds 1 and 2 have fact 1, world 2 fact 2; world 0 leads to both, to world 1 by two records. M2, at least 3 by 7 of fact
    // 1, is 0 there. With two copies in one of these records, or in both, there are 2 + 1 = 3.
    let example = |first: u8, second: u8| {
        [
            0x02, 0, 0, 0x41, 1, 0, 0x42, 1, 0, 0x42, 2, 0, 0x80, 7, first, 0x80, 7, 8, 0x80, 7,
            second,
        ]
    };
    for (first, second, m2) in [(4, 4, 0), (4, 5, 1), (5, 4, 1), (5, 5, 1)] {
        // Entry 4 is "at least 3" over the fact.
        let words = board(&grades(&[3]), &example(first, second)).unwrap();
        assert_eq!(words[4], m2);
    }
}

/// The structure in which every world stands four times, written out by hand.
#[test]
fn the_board_matches_every_world_standing_four_times() {
    // Two worlds, fact 1 at world 1; world 0 leads to world 1 with three copies, world 1 to itself with two.
    let structure = [1, 0, 0, 0x41, 1, 0, 0x80, 7, 6, 0x81, 7, 5];
    // World 0 stands at 0 to 3, world 1 at 4 to 7. Each of 0 to 3 leads to 4, 5, 6; each of 4 to 7 leads to 4, 5.
    let four_times = [
        7, 0, 0, 0x44, 1, 0, 0x45, 1, 0, 0x46, 1, 0, 0x47, 1, 0, // the fact
        0x80, 7, 0x10, 0x80, 7, 0x14, 0x80, 7, 0x18, 0x81, 7, 0x10, 0x81, 7, 0x14, 0x81, 7,
        0x18, //
        0x82, 7, 0x10, 0x82, 7, 0x14, 0x82, 7, 0x18, 0x83, 7, 0x10, 0x83, 7, 0x14, 0x83, 7,
        0x18, //
        0x84, 7, 0x10, 0x84, 7, 0x14, 0x85, 7, 0x10, 0x85, 7, 0x14, //
        0x86, 7, 0x10, 0x86, 7, 0x14, 0x87, 7, 0x10, 0x87, 7, 0x14,
    ];
    let table = grades(&[2, 3, 4]);
    let words = board(&table, &structure).unwrap();
    // At least 2 at both worlds, at least 3 at world 0, at least 4 at none; at most 2 at world 1, at most 3 at both.
    assert_eq!(words[..2], [0b11, 0b10]);
    assert_eq!([words[2], words[6], words[10]], [0b11, 0b01, 0b00]);
    assert_eq!([words[3], words[7], words[11]], [0b10, 0b11, 0b11]);
    let spread = |word: &u64| [0, 0x0f, 0xf0, 0xff][*word as usize];
    let expected: Vec<u64> = words.iter().map(spread).collect();
    assert_eq!(board(&table, &four_times), Ok(expected));
}

/// A link of two copies is one world led to, which counts twice on both sides of a contradiction.
#[test]
fn possible_and_marks_are_as_they_were() {
    let mut t = Writer::new();
    let p = t.fact(1);
    let two = t.at_least(2, 7, p);
    let one = t.at_most(1, 7, p);
    let both = t.and(two, one);
    let three = t.at_least(3, 7, p);
    let table = t.bytes();
    let mut words = vec![0; hurnavis::work_words(&table, both, three).unwrap()];
    // Two copies to p: "at least 2" holds at world 0 though one world is led to, and then "at most 1" does not. From world 1 no
    // link leads anywhere.
    let structure = [1, 0, 0, 0x41, 1, 0, 0x80, 7, 5];
    assert_eq!(board(&t, &structure), Ok(vec![0b10, 0b01, 0b10, 0, 0]));
    assert_eq!(hurnavis::decide(&table, two, &mut words), Ok(true));
    assert_eq!(hurnavis::decide(&table, both, &mut words), Ok(false));
    let mark = hurnavis::mark(&table, two, three, &mut words);
    assert_eq!(mark, Ok(Mark::Narrower));
    let entries = refusals::table(&table).unwrap();
    let independent = |entry| independent::satisfiable(&entries, entry, Limits::LARGE);
    assert_eq!(
        (independent(two), independent(both)),
        (Some(true), Some(false))
    );
    let mark = independent::compared(&entries, two, three, Limits::LARGE);
    assert_eq!(mark, Some(Mark::Narrower));
}
