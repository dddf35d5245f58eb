//! The families of random inputs and their shares.

use crate::damage;
use crate::formula::{self, Formula, Signs};
use crate::input::{over, Input};
use crate::rewrite;
use hurnavis::Writer;
use hurnavis_comparison::layout;
use hurnavis_comparison::xorshift::Xorshift;

/// The input of this generator.
pub fn draw(random: &mut Xorshift) -> Input {
    match random.below(100) {
        0..=29 => pair(random),
        30..=34 => great_grades(random),
        35..=46 => needs(random),
        47..=54 => nested_needs(random),
        55..=69 => entries(random),
        70..=74 => deep(random),
        75..=78 => border(random),
        79..=82 => many_names(random),
        83..=97 => damage::damaged(random),
        _ => damage::noise(random),
    }
}

/// A formula and a descendant of it by rewrites and mutations, in one table.
pub fn pair(random: &mut Xorshift) -> Input {
    let countings = random.pick(&[2, 3, 4, 5]);
    let mut signs = Signs::draw(random, countings);
    let size = random.between(1, 17);
    let model = formula::draw(random, &mut signs, size);
    written_pair(random, &signs, model)
}

/// How many needs and limits stand on one relation.
const COUNTINGS: &[usize] = &[2, 3, 4, 5, 6, 6, 7, 7, 8, 8, 9, 10];

/// Needs and limits on one relation: up to ten beside their own parts, or up to five beside a descendant.
fn needs(random: &mut Xorshift) -> Input {
    let signs = Signs::draw(random, 0);
    let atoms = formula::facts(&signs);
    let relation = signs.relations[0];
    if random.percent(30) {
        let count = random.pick(COUNTINGS) / 2;
        let model = formula::needs_and_limits(random, relation, &atoms, count);
        return written_pair(random, &signs, model);
    }
    let count = random.pick(COUNTINGS);
    let mut table = Writer::new();
    let model = fitting(random, relation, &atoms, count).write(&mut table);
    let answer = random.below(table.count());
    over(random, "needs and limits", &table, (model, answer))
}

/// Needs and limits over parts that count themselves, on another relation or on the same.
fn nested_needs(random: &mut Xorshift) -> Input {
    let mut signs = Signs::draw(random, 0);
    signs.relations.push(signs.relations[0].wrapping_add(1));
    let facts = formula::facts(&signs);
    let inner = random.pick(&signs.relations);
    let mut atoms = facts.clone();
    for _ in 0..random.between(1, 2) {
        atoms.push(formula::needs_and_limits(random, inner, &facts, 1));
    }
    let count = random.pick(&[1, 2, 3, 3, 4, 5, 6, 8]);
    let relation = signs.relations[0];
    let mut table = Writer::new();
    let model = fitting(random, relation, &atoms, count).write(&mut table);
    let answer = random.below(table.count());
    over(random, "nested needs", &table, (model, answer))
}

/// Needs and limits that fit into a table together with four entries more; fewer of them, if they do not.
fn fitting(random: &mut Xorshift, relation: u8, atoms: &[Formula], count: usize) -> Formula {
    let drawn = formula::needs_and_limits(random, relation, atoms, count);
    if count > 1 && drawn.size() + 4 > layout::MOST_ENTRIES {
        return fitting(random, relation, atoms, count - 1);
    }
    drawn
}

/// Two countings with grades at the end of the byte, where "not at most 255" asks for 256.
fn great_grades(random: &mut Xorshift) -> Input {
    let mut table = Writer::new();
    let mut asked = [0; 2];
    let end = random.pick(&[255, 255, 255, 128]);
    for entry in &mut asked {
        let part = match random.below(4) {
            0 => table.truth(),
            1 => table.fact(1),
            _ => table.fact(0),
        };
        let grade = end - random.below(3) as u8;
        *entry = if random.percent(50) {
            table.at_least(grade, 0, part)
        } else {
            table.at_most(grade, 0, part)
        };
        if random.percent(50) {
            *entry = table.not(*entry);
        }
    }
    if random.percent(50) {
        asked[0] = table.and(asked[0], asked[1]);
    }
    over(random, "great grades", &table, (asked[0], asked[1]))
}

fn written_pair(random: &mut Xorshift, signs: &Signs, model: Formula) -> Input {
    let mut answer = model.clone();
    for _ in 0..random.below(4) {
        answer = rewrite::rewrite(random, answer);
    }
    for _ in 0..random.pick(&[0, 0, 1, 1, 1, 2]) {
        answer = rewrite::mutate(random, signs, answer);
    }
    let mut table = Writer::new();
    let model = model.write(&mut table);
    let answer = answer.write(&mut table);
    let asked = if random.percent(50) {
        (model, answer)
    } else {
        (answer, model)
    };
    over(random, "pairs", &table, asked)
}

/// Entries drawn one by one, so that parts are shared.
pub fn entries(random: &mut Xorshift) -> Input {
    let countings = random.pick(&[3, 5, 8, 10]);
    let mut signs = Signs::draw(random, countings);
    let count = random.pick(&[2, 4, 6, 8, 10, 12, 13, 14, 18, 24, 40]);
    let mut table = Writer::new();
    for number in 0..count {
        entry(random, &mut signs, &mut table, number);
    }
    let model = count - 1 - random.below(count.min(3));
    let answer = random.below(count);
    over(random, "shared entries", &table, (model, answer))
}

fn entry(random: &mut Xorshift, signs: &mut Signs, table: &mut Writer, number: usize) {
    // Late entries are preferred, so that tables grow deep rather than wide.
    let part = |random: &mut Xorshift| {
        let back = random.below(number).min(random.below(number));
        number - 1 - back
    };
    let fact = random.pick(&signs.facts);
    match random.below(12) {
        _ if number == 0 => table.fact(fact),
        0 => table.truth(),
        1 => table.falsity(),
        2..=3 => table.fact(fact),
        4 => {
            let first = part(random);
            table.not(first)
        }
        5..=6 => {
            let (first, second) = (part(random), part(random));
            table.and(first, second)
        }
        7..=8 => {
            let (first, second) = (part(random), part(random));
            table.or(first, second)
        }
        kind => {
            let first = part(random);
            let Some(relation) = signs.relation(random) else {
                table.not(first);
                return;
            };
            let grade = signs.grade(random);
            if kind < 11 {
                table.at_least(grade, relation, first)
            } else {
                table.at_most(grade, relation, first)
            }
        }
    };
}

/// A chain of countings, each over the one before, with negations between; it may be 63 deep.
fn deep(random: &mut Xorshift) -> Input {
    let depth = random.pick(&[3, 5, 8, 12, 20, 31, 62, 63]);
    let mut table = Writer::new();
    let mut last = match random.below(4) {
        0 => table.falsity(),
        1 => table.truth(),
        _ => table.fact(9),
    };
    let grade = random.pick(&[0, 1, 2, 255]);
    for _ in 0..depth {
        if table.count() < 2 * depth.min(31) && random.percent(30) && table.count() + 2 < 64 {
            last = table.not(last);
        }
        if table.count() == layout::MOST_ENTRIES {
            break;
        }
        let grade = if random.percent(20) { 0 } else { grade };
        last = if random.percent(70) {
            table.at_least(grade, 4, last)
        } else {
            table.at_most(grade, 4, last)
        };
    }
    let answer = table.count() - random.between(1, 4);
    over(random, "chains", &table, (last, answer))
}

/// What a board asks of a structure: many facts and relations, of few names or of many, so that a fact and a relation often
/// share one. Only a fact is decided on.
fn many_names(random: &mut Xorshift) -> Input {
    let names = random.pick(&[1, 2, 5, 20, 64, 256]);
    let count = random.pick(&[2, 5, 10, 20, 40, 63, 64]);
    let mut table = Writer::new();
    table.fact(random.below(names) as u8);
    while table.count() < count {
        let (name, grade) = (
            random.below(names) as u8,
            random.pick(&[0, 1, 1, 2, 3, 64, 255]),
        );
        let (first, second) = (random.below(table.count()), random.below(table.count()));
        match random.below(10) {
            0..=1 => table.fact(name),
            2 => table.not(first),
            3 => table.or(first, second),
            4..=6 => table.at_least(grade, name, first),
            _ => table.at_most(grade, name, first),
        };
    }
    over(random, "many names", &table, (0, 0))
}

/// Tables of 1, 64 and 65 entries, entry numbers and words at their borders.
fn border(random: &mut Xorshift) -> Input {
    let count = random.pick(&[1, 2, 63, 64, 65]);
    let mut table = Writer::new();
    for number in 0..count {
        match random.below(4) {
            0 if number > 0 => table.not(number - 1),
            1 if number > 0 => table.or(random.below(number), number - 1),
            _ => table.fact(random.pick(&[0, 1, 255])),
        };
    }
    let asked = |random: &mut Xorshift| {
        random.pick(&[0, count - 1, count, count + 1, 255, 256, usize::MAX])
    };
    let asked = (asked(random), asked(random));
    let mut input = over(random, "borders", &table, asked);
    damage::shorten_words(random, &mut input);
    input
}
