//! The families of random inputs and their shares.

use crate::damage;
use crate::input::Input;
use crate::structures::{self, shuffle, Style};
use crate::sums;
use crate::tables;
use hurnavis_comparison::layout::{Record, MOST_RECORDS};
use hurnavis_comparison::xorshift::Xorshift;

/// The input of this generator.
pub fn draw(random: &mut Xorshift) -> Input {
    match random.below(100) {
        0..=24 => any(random),
        25..=41 => repeated(random),
        42..=47 => to_itself(random),
        48..=61 => sums::near(random),
        62..=66 => sums::great(random),
        67..=68 => full(random),
        69..=73 => without(random),
        74..=77 => bytes(random),
        78..=83 => damage::zero_bits(random),
        84..=87 => damage::outside(random),
        88..=97 => damage::damaged(random),
        _ => damage::noise(random),
    }
}

const WORLDS: &[usize] = &[1, 2, 2, 3, 3, 4, 5, 8, 12, 15, 16, 16, 17, 33, 63, 64];
const ENTRIES: &[usize] = &[2, 4, 6, 8, 12, 20, 20, 40, 64];

/// Any facts and links, with any copies.
pub fn any(random: &mut Xorshift) -> Input {
    let worlds = random.pick(WORLDS);
    let style = Style::draw(random, worlds);
    let count = random.between(1, 5 * worlds.min(16) + 1);
    let records = style.records(random, count);
    over(random, "any", &style, &records)
}

/// The structure with a table that fits it.
pub fn over(
    random: &mut Xorshift,
    family: &'static str,
    style: &Style,
    records: &[Record],
) -> Input {
    let count = random.pick(ENTRIES);
    let table = tables::draw(random, style, records, count);
    Input::new(random, family, &table, records)
}

/// Few links, each stated several times with different numbers of copies, in any order.
fn repeated(random: &mut Xorshift) -> Input {
    let worlds = random.pick(WORLDS);
    let style = Style {
        copies: random.pick(&[&[1, 2, 3, 4], &[1, 4], &[1, 2], &[2, 3], &[3, 4]]),
        ..Style::draw(random, worlds)
    };
    let mut records = vec![style.header()];
    for _ in 0..random.between(1, 6) {
        let link = style.link(random);
        records.push(link);
        for _ in 0..random.between(1, 5) {
            records.push(style.again(random, link));
        }
    }
    for _ in 0..random.below(4) {
        records.push(style.fact(random));
    }
    shuffle(random, &mut records);
    over(random, "repeated", &style, &records)
}

/// Few worlds that mostly lead to themselves.
fn to_itself(random: &mut Xorshift) -> Input {
    let worlds = random.pick(&[1, 1, 2, 3, 16, 64]);
    let style = Style::draw(random, worlds);
    let mut records = vec![style.header()];
    for _ in 0..random.between(1, 8) {
        records.push(match random.below(10) {
            0..=6 => style.loop_at_some(random),
            7..=8 => style.fact(random),
            _ => style.link(random),
        });
    }
    over(random, "to itself", &style, &records)
}

/// As many records as there can be, or nearly, and up to as many relations.
fn full(random: &mut Xorshift) -> Input {
    let worlds = random.pick(&[1, 4, 8, 16, 63, 64, 64]);
    let relations = random.pick(&[1, 1, 5, 63, 64, 256]);
    let style = Style {
        relations: structures::names(random, relations),
        ..Style::draw(random, worlds)
    };
    let count = random.pick(&[MOST_RECORDS, MOST_RECORDS, MOST_RECORDS - 1, 700]);
    let records = style.records(random, count);
    over(random, "full", &style, &records)
}

/// No link with more than one copy.
fn without(random: &mut Xorshift) -> Input {
    let worlds = random.pick(WORLDS);
    let style = Style {
        copies: &[1],
        ..Style::draw(random, worlds)
    };
    let count = random.between(1, 5 * worlds.min(16) + 1);
    let records = style.records(random, count);
    over(random, "without copies", &style, &records)
}

/// Links of which every byte is anything, among 64 worlds, so that none is outside. The relations are few.
fn bytes(random: &mut Xorshift) -> Input {
    let mut style = Style::draw(random, 64);
    style.relations = vec![0, 1];
    let mut records = vec![style.header()];
    for _ in 0..random.between(1, 60) {
        let [a, b, c, ..] = random.word().to_be_bytes();
        let (kind, relation) = (2 << 6, b & 1);
        records.extend(Record::unpack([kind | a & 63, relation, c]));
    }
    over(random, "bytes", &style, &records)
}
