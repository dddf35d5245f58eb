//! Document 02's P1, the reader of typed descriptions, in two readings.
//!
//! The first asks whether the text is in the grammar. Which sign binds closer does not matter for that: it is enough to know what
//! may come next and how many brackets are open. It counts the entries too, so that it settles every refusal, for a text of
//! any length. The second is a recursive descent, which writes the entries of the 1,024 bytes that are left then at most.
//!
//! The benchmark takes it for a plain reader, so what runs for each sign is inlined.

use crate::layout::{self, Entry, MOST_ENTRIES};
use hurnavis::Fault;

/// The longest text.
pub const MOST_BYTES: usize = 1024;

/// The entries of the text where so many bytes are lent for them, or its refusal: 11, then 12, then 10.
pub fn read(text: &[u8], lent: usize) -> Result<Vec<Entry>, Fault> {
    let shape = Shape::of(text)?;
    if text.len() > MOST_BYTES || shape.too_great || shape.entries > MOST_ENTRIES {
        return Err(Fault::TextLimit);
    }
    if lent < 4 * shape.entries {
        return Err(Fault::Space);
    }
    Ok(Descent::of(text))
}

#[derive(Clone, Copy, Debug, PartialEq, Eq)]
enum Sign {
    True,
    False,
    Fact(Number),
    Not,
    And,
    Or,
    AtLeast(Number),
    AtMost(Number),
    Relation(Number),
    Open,
    Close,
}

/// A number that is written as it has to be; nothing, if it is over 255.
type Number = Option<u8>;

/// The signs of a text, one after the other, without the spaces around them.
struct Signs<'a> {
    rest: &'a [u8],
}

impl Iterator for Signs<'_> {
    type Item = Result<Sign, Fault>;

    #[inline(always)]
    fn next(&mut self) -> Option<Result<Sign, Fault>> {
        self.pass_spaces();
        (!self.rest.is_empty()).then(|| self.sign())
    }
}

impl Signs<'_> {
    fn pass_spaces(&mut self) {
        while let [b' ', rest @ ..] = self.rest {
            self.rest = rest;
        }
    }

    /// Passes the sign of this one byte, if it is the next; true if so.
    fn pass(&mut self, sign: u8) -> bool {
        self.pass_spaces();
        match self.rest {
            [first, rest @ ..] if *first == sign => {
                self.rest = rest;
                true
            }
            _ => false,
        }
    }

    #[inline(always)]
    fn sign(&mut self) -> Result<Sign, Fault> {
        let (sign, length) = match self.rest {
            [b'T', ..] => (Sign::True, 1),
            [b'F', ..] => (Sign::False, 1),
            [b'!', ..] => (Sign::Not, 1),
            [b'&', ..] => (Sign::And, 1),
            [b'|', ..] => (Sign::Or, 1),
            [b'(', ..] => (Sign::Open, 1),
            [b')', ..] => (Sign::Close, 1),
            [b'n', ..] => self.numbered(Sign::Fact, 1)?,
            [b'r', ..] => self.numbered(Sign::Relation, 1)?,
            [b'>', b'=', ..] => self.numbered(Sign::AtLeast, 2)?,
            [b'<', b'=', ..] => self.numbered(Sign::AtMost, 2)?,
            _ => return Err(Fault::TextGrammar),
        };
        self.rest = &self.rest[length..];
        Ok(sign)
    }

    /// A sign whose number stands behind its first bytes, and how long it is with it.
    fn numbered(&self, sign: fn(Number) -> Sign, before: usize) -> Result<(Sign, usize), Fault> {
        let behind = &self.rest[before..];
        let length = behind.iter().take_while(|b| b.is_ascii_digit()).count();
        Ok((sign(number(&behind[..length])?), before + length))
    }
}

fn number(digits: &[u8]) -> Result<Number, Fault> {
    match digits {
        [] | [b'0', _, ..] => Err(Fault::TextGrammar),
        [_, _, _, _, ..] => Ok(None),
        _ => {
            let digit = |byte: &u8| u16::from(byte - b'0');
            let value = digits.iter().fold(0, |value, b| 10 * value + digit(b));
            Ok(u8::try_from(value).ok())
        }
    }
}

/// What may come next.
#[derive(Clone, Copy)]
enum Next {
    /// A description, or something that stands before one.
    Part,
    /// The relation of a counting sign.
    Relation,
    /// What can stand behind a description.
    Behind,
}

/// What the first reading finds.
struct Shape {
    next: Next,
    open: usize,
    entries: usize,
    too_great: bool,
}

impl Shape {
    fn of(text: &[u8]) -> Result<Shape, Fault> {
        let mut shape = Shape {
            next: Next::Part,
            open: 0,
            entries: 0,
            too_great: false,
        };
        for sign in (Signs { rest: text }) {
            shape.add(sign?)?;
        }
        match (shape.next, shape.open) {
            (Next::Behind, 0) => Ok(shape),
            _ => Err(Fault::TextGrammar),
        }
    }

    #[inline(always)]
    fn add(&mut self, sign: Sign) -> Result<(), Fault> {
        use Sign::*;
        self.next = match (self.next, sign) {
            (Next::Part, True | False | Fact(_)) => Next::Behind,
            (Next::Part, Not) => Next::Part,
            (Next::Part, AtLeast(_) | AtMost(_)) => Next::Relation,
            (Next::Relation, Relation(_)) => Next::Part,
            (Next::Behind, And | Or) => Next::Part,
            (Next::Part, Open) => {
                self.open += 1;
                Next::Part
            }
            (Next::Behind, Close) if self.open > 0 => {
                self.open -= 1;
                Next::Behind
            }
            _ => return Err(Fault::TextGrammar),
        };
        self.entries += !matches!(sign, Relation(_) | Open | Close) as usize;
        self.too_great |= matches!(
            sign,
            Fact(None) | Relation(None) | AtLeast(None) | AtMost(None)
        );
        Ok(())
    }
}

/// The second reading, of a text without faults. It goes as deep as brackets, "not" and counting signs stand in one another.
struct Descent<'a> {
    signs: Signs<'a>,
    entries: Vec<Entry>,
}

impl Descent<'_> {
    fn of(text: &[u8]) -> Vec<Entry> {
        let mut descent = Descent {
            signs: Signs { rest: text },
            entries: Vec::new(),
        };
        descent.or();
        descent.entries
    }

    /// Parts with "or" between them. The number is that of the entry.
    fn or(&mut self) -> u8 {
        let mut first = self.and();
        while self.signs.pass(b'|') {
            let second = self.and();
            first = self.write(layout::OR, 0, first, second, 0);
        }
        first
    }

    /// Parts with "and" between them.
    fn and(&mut self) -> u8 {
        let mut first = self.one();
        while self.signs.pass(b'&') {
            let second = self.one();
            first = self.write(layout::AND, 0, first, second, 0);
        }
        first
    }

    fn one(&mut self) -> u8 {
        match self.sign() {
            Sign::True => self.write(layout::TRUE, 0, 0, 0, 0),
            Sign::False => self.write(layout::FALSE, 0, 0, 0, 0),
            Sign::Fact(Some(name)) => self.write(layout::FACT, name, 0, 0, 0),
            Sign::Not => {
                let part = self.one();
                self.write(layout::NOT, 0, part, 0, 0)
            }
            Sign::AtLeast(Some(grade)) => self.counting(layout::AT_LEAST, grade),
            Sign::AtMost(Some(grade)) => self.counting(layout::AT_MOST, grade),
            Sign::Open => {
                let part = self.or();
                assert!(self.signs.pass(b')'), "the first reading let it stay open");
                part
            }
            other => panic!("the first reading let {other:?} pass"),
        }
    }

    fn counting(&mut self, kind: u8, grade: u8) -> u8 {
        let Sign::Relation(Some(name)) = self.sign() else {
            panic!("the first reading let a counting sign without a relation pass");
        };
        let part = self.one();
        self.write(kind, name, part, 0, grade)
    }

    fn sign(&mut self) -> Sign {
        match self.signs.next() {
            Some(Ok(sign)) => sign,
            end => panic!("the first reading did not see {end:?}"),
        }
    }

    fn write(&mut self, kind: u8, name: u8, first: u8, second: u8, grade: u8) -> u8 {
        self.entries.push(Entry {
            kind,
            name,
            first,
            second,
            grade,
        });
        self.entries.len() as u8 - 1
    }
}

#[cfg(test)]
mod tests;
