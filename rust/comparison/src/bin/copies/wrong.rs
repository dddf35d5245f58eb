//! The inputs tell P7's reading from others that a program could take for right.

use crate::families;
use crate::fourfold::fourfold;
use crate::input::Input;
use hurnavis_comparison::independent;
use hurnavis_comparison::layout::{self, Record};
use hurnavis_comparison::xorshift::Xorshift;
use std::collections::HashMap;

/// The accepted ones among the first inputs, and how many of them have to tell.
const INPUTS: u64 = 1_000;
const ENOUGH: usize = 40;

fn accepted() -> impl Iterator<Item = (Input, Vec<u64>)> {
    let inputs = (0..INPUTS).map(|number| families::draw(&mut Xorshift::new(1, number)));
    inputs.filter_map(|input| {
        let words = independent::board(&input.table, &input.structure, input.lent).ok()?;
        Some((input, words))
    })
}

/// The copies that count, of those that the records of one link state in this order.
type Reading = fn(&[u8]) -> u8;

/// The structure in which each record of a link has the number that the reading takes.
fn read_as(structure: &[u8], reading: Reading) -> Vec<u8> {
    let mut records = layout::unpack_structure(structure);
    let mut stated: HashMap<(u8, u8, u8), Vec<u8>> = HashMap::new();
    for (link, copies) in records.iter_mut().filter_map(link) {
        stated.entry(link).or_default().push(*copies);
    }
    for (link, copies) in records.iter_mut().filter_map(link) {
        *copies = reading(&stated[&link]);
    }
    layout::pack_structure(&records)
}

/// Which link a record states, and with how many copies.
fn link(record: &mut Record) -> Option<((u8, u8, u8), &mut u8)> {
    match record {
        Record::Link {
            from,
            relation,
            to,
            copies,
        } => Some(((*from, *relation, *to), copies)),
        _ => None,
    }
}

/// On how many inputs the reading gives another board.
fn told(reading: Reading) -> usize {
    let differs = |(input, words): &(Input, Vec<u64>)| {
        let structure = read_as(&input.structure, reading);
        independent::board(&input.table, &structure, input.lent).as_ref() != Ok(words)
    };
    accepted().filter(differs).count()
}

#[test]
fn every_wrong_reading_is_told() {
    let readings: [(&str, Reading); 7] = [
        ("worlds", |_| 1),
        ("the first", |stated| stated[0]),
        ("the last", |stated| stated[stated.len() - 1]),
        ("the least", |stated| *stated.iter().min().unwrap()),
        ("the sum", |stated| {
            stated.iter().fold(0, |sum, copies| 4.min(sum + copies))
        }),
        ("the bits of all", |stated| {
            stated.iter().fold(0, |bits, copies| bits | (copies - 1)) + 1
        }),
        ("no more than 3", |stated| {
            *stated.iter().max().unwrap().min(&3)
        }),
    ];
    for (name, reading) in readings {
        let told = told(reading);
        assert!(told >= ENOUGH, "{name}: {told}");
    }
}

#[test]
fn the_right_reading_is_not() {
    assert_eq!(told(|stated| *stated.iter().max().unwrap()), 0);
}

/// 256 copies, where a count in 8 bits would be 0; and worlds that stand four times.
#[test]
fn the_inputs_reach_the_ends() {
    let (mut all, mut four_times) = (0, 0);
    for (input, _) in accepted() {
        four_times += fourfold(&input.structure).is_some() as usize;
        all += (most(&input.structure) == 256) as usize;
    }
    assert!(all >= ENOUGH / 8, "{all}");
    assert!(four_times >= 10 * ENOUGH, "{four_times}");
}

/// The most copies that lead from one world by one relation.
fn most(structure: &[u8]) -> usize {
    let mut records = layout::unpack_structure(structure);
    let mut links = HashMap::new();
    for (link, copies) in records.iter_mut().filter_map(link) {
        let known = links.entry(link).or_insert(0);
        *known = usize::from(*copies).max(*known);
    }
    let mut sums = HashMap::new();
    for ((from, relation, _), copies) in links {
        *sums.entry((from, relation)).or_insert(0) += copies;
    }
    sums.into_values().max().unwrap_or(0)
}
