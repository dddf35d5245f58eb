//! Grades at the sum of copies, one above and one below it, where the sum is known from writing the links down.

use crate::input::{Input, Known};
use crate::structures::{shuffle, Style};
use hurnavis::Writer;
use hurnavis_comparison::layout::{Record, MOST_COPIES};
use hurnavis_comparison::xorshift::Xorshift;

/// Any worlds and any of them led to.
pub fn near(random: &mut Xorshift) -> Input {
    let worlds = random.pick(&[1, 2, 3, 4, 8, 16, 16, 33, 64]);
    let style = Style::draw(random, worlds);
    let targets = random.between(0, worlds);
    let origins = random.between(1, worlds.min(3));
    sums(random, "sums", &style, origins, targets)
}

const NEARLY_ALL_4: &[u8] = &[3, 4, 4, 4, 4, 4, 4, 4, 4, 4, 4, 4, 4, 4, 4, 4, 4, 4, 4, 4];

/// All of 64 worlds led to, or nearly all, by 4 copies: the sum is 256, or little less, where grades end with 255.
pub fn great(random: &mut Xorshift) -> Input {
    let worlds = random.pick(&[64, 64, 64, 63]);
    let style = Style {
        copies: random.pick(&[&[MOST_COPIES], &[MOST_COPIES], NEARLY_ALL_4]),
        ..Style::draw(random, worlds)
    };
    let targets = worlds - random.pick(&[0, 0, 0, 1, 2]);
    let origins = random.between(1, 3);
    sums(random, "great sums", &style, origins, targets)
}

/// From each of the origins, the first worlds, links to so many others, each stated once or more.
fn sums(
    random: &mut Xorshift,
    family: &'static str,
    style: &Style,
    origins: usize,
    targets: usize,
) -> Input {
    let (relation, fact) = (random.pick(&style.relations), random.pick(&style.facts));
    let holds_at: Vec<bool> = (0..style.worlds).map(|_| random.percent(60)).collect();
    let mut records = vec![style.header()];
    for world in (0..style.worlds).filter(|world| holds_at[*world]) {
        records.push(Record::Fact {
            world: world as u8,
            name: fact,
        });
    }
    let mut table = Writer::new();
    let parts = [table.truth(), table.fact(fact)];
    let mut known = Vec::new();
    for from in 0..origins as u8 {
        let first = random.below(style.worlds);
        let (mut all, mut of_fact) = (0, 0);
        for to in (first..first + targets).map(|to| to % style.worlds) {
            let copies = state(random, style, &mut records, (from, relation, to as u8));
            all += copies;
            of_fact += if holds_at[to] { copies } else { 0 };
        }
        for (part, sum) in parts.into_iter().zip([all, of_fact]) {
            ask(&mut table, &mut known, (from, relation, part), sum);
        }
    }
    shuffle(random, &mut records);
    Input {
        known,
        ..Input::new(random, family, &table, &records)
    }
}

/// States a link, sometimes a second time with fewer copies, and answers how many it has.
fn state(
    random: &mut Xorshift,
    style: &Style,
    records: &mut Vec<Record>,
    (from, relation, to): (u8, u8, u8),
) -> usize {
    let copies = random.pick(style.copies);
    let mut stated = |copies| {
        records.push(Record::Link {
            from,
            relation,
            to,
            copies,
        })
    };
    stated(copies);
    if copies > 1 && random.percent(10) {
        stated(random.between(1, copies as usize - 1) as u8);
    }
    copies.into()
}

/// Entries whose truth at the origin is plain from the sum. A grade over 255 cannot be asked for.
fn ask(
    table: &mut Writer,
    known: &mut Vec<Known>,
    (from, relation, part): (u8, u8, usize),
    sum: usize,
) {
    for grade in [sum.saturating_sub(1), sum, sum + 1] {
        let Ok(byte) = u8::try_from(grade) else {
            continue;
        };
        for (entry, holds) in [
            (table.at_least(byte, relation, part), sum >= grade),
            (table.at_most(byte, relation, part), sum <= grade),
        ] {
            known.push(Known {
                entry,
                world: from,
                holds,
            });
        }
    }
}
