//! Random descriptions, and the ways to type them: with spaces and with brackets that are not needed.

use hurnavis_comparison::layout::{self, Entry};
use hurnavis_comparison::xorshift::Xorshift;

#[derive(Clone, Debug)]
pub enum Tree {
    /// True, false or a fact: the kind and the name.
    Leaf(u8, u8),
    /// A sign before a part: the kind, the relation and the grade.
    Prefix(u8, u8, u8, Box<Tree>),
    /// "And" or "or" between two parts.
    Join(u8, Box<Tree>, Box<Tree>),
}

/// A tree of exactly so many entries.
pub fn draw(random: &mut Xorshift, size: usize) -> Tree {
    match size {
        1 => leaf(random),
        2 => prefix(random, leaf),
        _ if random.percent(30) => prefix(random, |random| draw(random, size - 1)),
        _ => {
            // Now and then all is on one side, so that equal signs stand in a row.
            let first = random.between(1, size - 2);
            let first = random.pick(&[first, first, 1, size - 2]);
            let kind = random.pick(&[layout::AND, layout::OR]);
            let (first, second) = (draw(random, first), draw(random, size - 1 - first));
            Tree::Join(kind, Box::new(first), Box::new(second))
        }
    }
}

fn leaf(random: &mut Xorshift) -> Tree {
    let kind = random.pick(&[layout::TRUE, layout::FALSE, layout::FACT, layout::FACT]);
    match kind {
        layout::FACT => Tree::Leaf(kind, number(random)),
        _ => Tree::Leaf(kind, 0),
    }
}

fn prefix(random: &mut Xorshift, part: impl FnOnce(&mut Xorshift) -> Tree) -> Tree {
    let kind = random.pick(&[layout::NOT, layout::AT_LEAST, layout::AT_MOST]);
    let (name, grade) = match kind {
        layout::NOT => (0, 0),
        _ => (number(random), number(random)),
    };
    Tree::Prefix(kind, name, grade, Box::new(part(random)))
}

/// A number of one, two or three digits, often where their number changes.
pub fn number(random: &mut Xorshift) -> u8 {
    let any = random.word() as u8;
    random.pick(&[0, 1, 7, 9, 10, 99, 100, 199, 200, 249, 250, 255, any, any])
}

/// How often spaces and needless brackets are typed, in percent, and the most of them in one place.
pub struct Style {
    pub spaces: usize,
    pub brackets: usize,
    pub most: usize,
}

impl Style {
    pub fn draw(random: &mut Xorshift) -> Style {
        Style {
            spaces: random.pick(&[0, 0, 10, 50, 100]),
            brackets: random.pick(&[0, 0, 0, 10, 40]),
            most: random.pick(&[1, 1, 2, 5]),
        }
    }

    /// The sign, and perhaps spaces before it.
    fn push(&self, random: &mut Xorshift, sign: &str, text: &mut Vec<u8>) {
        if random.percent(self.spaces) {
            text.resize(text.len() + random.between(1, self.most), b' ');
        }
        text.extend(sign.bytes());
    }
}

impl Tree {
    pub fn size(&self) -> usize {
        match self {
            Tree::Leaf(..) => 1,
            Tree::Prefix(_, _, _, part) => 1 + part.size(),
            Tree::Join(_, first, second) => 1 + first.size() + second.size(),
        }
    }

    /// The entries: parts before their sign, left before right.
    pub fn entries(&self) -> Vec<Entry> {
        let mut entries = Vec::new();
        self.write(&mut entries);
        entries
    }

    fn write(&self, entries: &mut Vec<Entry>) -> u8 {
        let (kind, name, first, second, grade) = match self {
            Tree::Leaf(kind, name) => (*kind, *name, 0, 0, 0),
            Tree::Prefix(kind, name, grade, part) => (*kind, *name, part.write(entries), 0, *grade),
            Tree::Join(kind, first, second) => {
                let (first, second) = (first.write(entries), second.write(entries));
                (*kind, 0, first, second, 0)
            }
        };
        entries.push(Entry {
            kind,
            name,
            first,
            second,
            grade,
        });
        entries.len() as u8 - 1
    }

    pub fn typed(&self, random: &mut Xorshift, style: &Style) -> Vec<u8> {
        let mut text = Vec::new();
        self.push(random, style, 0, &mut text);
        style.push(random, "", &mut text);
        text
    }

    /// 0 for "or", 1 for "and", 2 for what binds closest.
    fn closeness(&self) -> u8 {
        match self {
            Tree::Join(layout::OR, ..) => 0,
            Tree::Join(..) => 1,
            _ => 2,
        }
    }

    /// Types the tree in a place where nothing looser than this may stand without brackets.
    fn push(&self, random: &mut Xorshift, style: &Style, least: u8, text: &mut Vec<u8>) {
        let mut brackets = (self.closeness() < least) as usize;
        while random.percent(style.brackets) {
            brackets += 1;
        }
        (0..brackets).for_each(|_| style.push(random, "(", text));
        self.push_signs(random, style, text);
        (0..brackets).for_each(|_| style.push(random, ")", text));
    }

    fn push_signs(&self, random: &mut Xorshift, style: &Style, text: &mut Vec<u8>) {
        match self {
            Tree::Leaf(layout::TRUE, _) => style.push(random, "T", text),
            Tree::Leaf(layout::FALSE, _) => style.push(random, "F", text),
            Tree::Leaf(_, name) => style.push(random, &format!("n{name}"), text),
            Tree::Prefix(kind, name, grade, part) => {
                match *kind {
                    layout::NOT => style.push(random, "!", text),
                    layout::AT_LEAST => style.push(random, &format!(">={grade}"), text),
                    _ => style.push(random, &format!("<={grade}"), text),
                }
                if *kind != layout::NOT {
                    style.push(random, &format!("r{name}"), text);
                }
                part.push(random, style, 2, text);
            }
            Tree::Join(kind, first, second) => {
                let (sign, own) = if *kind == layout::OR {
                    ("|", 0)
                } else {
                    ("&", 1)
                };
                first.push(random, style, own, text);
                style.push(random, sign, text);
                second.push(random, style, own + 1, text);
            }
        }
    }
}
