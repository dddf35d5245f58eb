//! Random formulas, kept to what the independent side can mostly answer: up to ten countings on one relation, small grades.

use hurnavis::Writer;
use hurnavis_comparison::xorshift::Xorshift;

#[derive(Clone, Debug)]
pub enum Formula {
    True,
    False,
    Fact(u8),
    Not(Box<Formula>),
    And(Box<Formula>, Box<Formula>),
    Or(Box<Formula>, Box<Formula>),
    /// Grade, relation, part.
    AtLeast(u8, u8, Box<Formula>),
    AtMost(u8, u8, Box<Formula>),
}

use Formula::*;

impl Formula {
    pub fn not(self) -> Formula {
        Not(Box::new(self))
    }

    pub fn and(self, other: Formula) -> Formula {
        And(Box::new(self), Box::new(other))
    }

    pub fn or(self, other: Formula) -> Formula {
        Or(Box::new(self), Box::new(other))
    }

    /// The number of entries that the formula takes when written without sharing.
    pub fn size(&self) -> usize {
        match self {
            True | False | Fact(_) => 1,
            Not(part) | AtLeast(_, _, part) | AtMost(_, _, part) => 1 + part.size(),
            And(first, second) | Or(first, second) => 1 + first.size() + second.size(),
        }
    }

    /// Writes the formula without sharing; its entry is the last one.
    pub fn write(&self, table: &mut Writer) -> usize {
        match self {
            True => table.truth(),
            False => table.falsity(),
            Fact(name) => table.fact(*name),
            Not(part) => {
                let part = part.write(table);
                table.not(part)
            }
            And(first, second) => {
                let (first, second) = (first.write(table), second.write(table));
                table.and(first, second)
            }
            Or(first, second) => {
                let (first, second) = (first.write(table), second.write(table));
                table.or(first, second)
            }
            AtLeast(grade, relation, part) => {
                let part = part.write(table);
                table.at_least(*grade, *relation, part)
            }
            AtMost(grade, relation, part) => {
                let part = part.write(table);
                table.at_most(*grade, *relation, part)
            }
        }
    }
}

/// The facts as formulas.
pub fn facts(signs: &Signs) -> Vec<Formula> {
    signs.facts.iter().map(|name| Fact(*name)).collect()
}

/// The facts and relations of one input, and how often it may still count on each relation.
pub struct Signs {
    pub facts: Vec<u8>,
    pub relations: Vec<u8>,
    left: Vec<usize>,
}

impl Signs {
    /// One to five facts, one or two relations, `countings` for each of these.
    pub fn draw(random: &mut Xorshift, countings: usize) -> Signs {
        let facts = random.pick(&[1, 2, 2, 3, 3, 4, 5]);
        let relations = random.pick(&[1, 2]);
        let start = random.word() as u8;
        Signs {
            facts: (0..facts)
                .map(|i| random.pick(&[i as u8, i as u8, 251 + i as u8]))
                .collect(),
            relations: (0..relations)
                .map(|i| random.pick(&[i as u8, 255 - i as u8, start.wrapping_add(i as u8)]))
                .collect(),
            left: vec![countings; relations],
        }
    }

    /// A relation that may count once more.
    pub fn relation(&mut self, random: &mut Xorshift) -> Option<u8> {
        let i = random.below(self.relations.len());
        // Two relations may have been drawn alike; the smaller share is then exceeded by a little.
        self.left[i] = self.left[i].checked_sub(1)?;
        Some(self.relations[i])
    }

    /// A grade, mostly a small one. After a great one nothing else counts on any relation.
    pub fn grade(&mut self, random: &mut Xorshift) -> u8 {
        if random.percent(2) {
            self.left.iter_mut().for_each(|left| *left = 0);
            return random.pick(&[254, 255, 100, 20]);
        }
        random.pick(&[0, 0, 1, 1, 1, 2, 2, 3])
    }
}

/// A formula of at most this size.
pub fn draw(random: &mut Xorshift, signs: &mut Signs, size: usize) -> Formula {
    if size <= 1 {
        return leaf(random, signs);
    }
    match random.below(10) {
        0 => draw(random, signs, size - 1).not(),
        1..=3 if size >= 3 => {
            let (first, second) = halves(random, signs, size);
            first.and(second)
        }
        4..=5 if size >= 3 => {
            let (first, second) = halves(random, signs, size);
            first.or(second)
        }
        _ => counting(random, signs, size),
    }
}

fn halves(random: &mut Xorshift, signs: &mut Signs, size: usize) -> (Formula, Formula) {
    let first = random.between(1, size - 2);
    (
        draw(random, signs, first),
        draw(random, signs, size - 1 - first),
    )
}

fn counting(random: &mut Xorshift, signs: &mut Signs, size: usize) -> Formula {
    let Some(relation) = signs.relation(random) else {
        return leaf(random, signs);
    };
    let grade = signs.grade(random);
    let part = Box::new(draw(random, signs, size - 1));
    if random.percent(50) {
        AtLeast(grade, relation, part)
    } else {
        AtMost(grade, relation, part)
    }
}

fn leaf(random: &mut Xorshift, signs: &Signs) -> Formula {
    match random.below(12) {
        0 => True,
        1 => False,
        2..=4 => Fact(random.pick(&signs.facts)).not(),
        _ => Fact(random.pick(&signs.facts)),
    }
}

/// Needs and limits on one relation over overlapping parts: the counting core of the decision. The parts are made of
/// the atoms.
pub fn needs_and_limits(
    random: &mut Xorshift,
    relation: u8,
    atoms: &[Formula],
    count: usize,
) -> Formula {
    let mut all: Option<Formula> = None;
    for _ in 0..count {
        let part = Box::new(part_of(random, atoms));
        let grade = random.pick(&[0, 1, 1, 2, 2, 3, 3, 4]);
        let next = match random.below(8) {
            0..=3 => AtLeast(grade, relation, part),
            4..=6 => AtMost(grade, relation, part),
            _ => AtMost(grade, relation, part).not(),
        };
        all = Some(match all {
            None => next,
            Some(all) => all.and(next),
        });
    }
    all.expect("one at least")
}

/// True, an atom or its negation, or two of them joined.
fn part_of(random: &mut Xorshift, atoms: &[Formula]) -> Formula {
    let mut literal = || {
        let atom = atoms[random.below(atoms.len())].clone();
        if random.percent(30) {
            atom.not()
        } else {
            atom
        }
    };
    let (first, second) = (literal(), literal());
    match random.below(10) {
        0..=1 => True,
        2..=5 => first,
        6..=7 => first.and(second),
        _ => first.or(second),
    }
}
