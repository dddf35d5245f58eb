//! Texts at the borders: of their length, their numbers, their entries, and of what a reader might count too narrowly.

use crate::damage;
use crate::input::Input;
use crate::tree::{self, Style, Tree};
use hurnavis_comparison::independent::text::MOST_BYTES;
use hurnavis_comparison::layout;
use hurnavis_comparison::xorshift::Xorshift;

/// A description of about the greatest length, with or without a fault.
pub fn lengths(random: &mut Xorshift) -> Input {
    let length = MOST_BYTES - 2 + random.below(5);
    let size = random.between(1, 64);
    let tree = tree::draw(random, size);
    let style = Style {
        brackets: 0,
        ..Style::draw(random)
    };
    let mut text = tree.typed(random, &style);
    pad(random, &mut text, length);
    let faulty = random.percent(25);
    if faulty {
        let at = random.below(text.len());
        text[at] = damage::byte(random, 20);
    }
    let known = (!faulty).then(|| tree.entries());
    Input {
        known,
        ..Input::new(random, "lengths", text)
    }
}

/// Spaces before and behind, or brackets, until the text is so long.
fn pad(random: &mut Xorshift, text: &mut Vec<u8>, length: usize) {
    let missing = length.saturating_sub(text.len());
    let some = random.below(missing / 2 + 1);
    let pairs = random.pick(&[0, some, missing / 2]);
    text.splice(0..0, vec![b'('; pairs]);
    text.resize(text.len() + pairs, b')');
    let spaces = missing - 2 * pairs;
    let before = random.below(spaces + 1);
    text.splice(0..0, vec![b' '; before]);
    text.resize(text.len() + spaces - before, b' ');
}

/// Numbers as they should be written, and not.
const NUMBERS: &[&str] = &[
    "0", "00", "000", "01", "09", "007", "1", "10", "99", "100", "199", "200", "249", "250", "254",
    "255", "256", "257", "260", "299", "300", "999", "1000", "2550", "0255", "0256", "", " 1",
    "1 2", "-1", "+1", "1.0", "1e1", "0x1", "1_0", "n1",
];

/// A number in each place where one can stand; the others are good.
pub fn numbers(random: &mut Xorshift) -> Input {
    let mut at = [(); 3].map(|()| tree::number(random).to_string());
    at[random.below(3)] = written(random);
    let [fact, relation, grade] = at;
    let sign = random.pick(&[">=", "<="]);
    let text = match random.below(3) {
        0 => format!("n{fact}"),
        1 => format!("{sign}{grade}r{relation}n{fact}"),
        _ => format!("T & {sign}{grade} r{relation} !n{fact} | F"),
    };
    Input::new(random, "numbers", text.into())
}

fn written(random: &mut Xorshift) -> String {
    let any = random.word() as u8;
    match random.below(8) {
        0..=3 => random.pick(NUMBERS).into(),
        // What is a good number again in so many bits.
        4 => {
            let bits = random.pick(&[8, 9, 16, 24, 31, 32, 33, 63, 64, 65, 120]);
            ((1_u128 << bits) + u128::from(any)).to_string()
        }
        5 => "0".repeat(random.between(1, 30)) + &any.to_string(),
        6 => random.pick(&["9", "1", "0"]).repeat(random.between(4, 80)),
        _ => random
            .pick(&["9", "1", "0"])
            .repeat(random.between(1000, 1100)),
    }
}

/// As many entries as a table holds, and more: at random, or one sign over and over.
pub fn entries(random: &mut Xorshift) -> Input {
    let size = random.pick(&[62, 63, 64, 64, 65, 65, 66, 128, 129, 256, 257, 320]);
    let tree = match random.below(4) {
        0 => row(random, size),
        1 => prefixes(random, size),
        _ => tree::draw(random, size),
    };
    Input::typed(random, "entries", &tree)
}

/// Facts with one sign between them, grouped leftwards or rightwards; a "not" around them, if the size is even.
fn row(random: &mut Xorshift, size: usize) -> Tree {
    let kind = random.pick(&[layout::AND, layout::OR]);
    let leftwards = random.percent(50);
    let fact = |name: usize| Tree::Leaf(layout::FACT, name as u8);
    let mut all = fact(0);
    for name in 1..size.div_ceil(2) {
        let (first, second) = if leftwards {
            (all, fact(name))
        } else {
            (fact(name), all)
        };
        all = Tree::Join(kind, Box::new(first), Box::new(second));
    }
    match size % 2 {
        0 => Tree::Prefix(layout::NOT, 0, 0, Box::new(all)),
        _ => all,
    }
}

/// "Not", or one counting, of itself.
fn prefixes(random: &mut Xorshift, size: usize) -> Tree {
    let numbers = (tree::number(random), tree::number(random));
    let kind = random.pick(&[layout::NOT, layout::AT_LEAST, layout::AT_MOST]);
    let (name, grade) = if kind == layout::NOT { (0, 0) } else { numbers };
    let leaf = Tree::Leaf(layout::FALSE, 0);
    (1..size).fold(leaf, |part, _| {
        Tree::Prefix(kind, name, grade, Box::new(part))
    })
}

/// Up to thousands of open brackets, alone or with something before them, and as many closed ones or not quite.
pub fn brackets(random: &mut Xorshift) -> Input {
    let any = random.between(1, 600);
    let open = random.pick(&[
        any, any, 31, 32, 63, 64, 65, 255, 256, 257, 340, 511, 512, 3000,
    ]);
    let unit = random.pick(&["(", "(", "( ", "!(", "T&(", "(n1|", ">=1r2(", "(F&("]);
    let closed = unit.matches('(').count() * open;
    let closed = match random.below(10) {
        0..=5 => closed,
        6 => closed + 1,
        7 => closed - 1,
        8 => closed + 256,
        _ => closed.saturating_sub(256),
    };
    let core = random.pick(&["T", "n12", "F | !n1", "", ")("]);
    let text = unit.repeat(open) + core + &random.pick(&[")", ")", " )"]).repeat(closed);
    Input::new(random, "brackets", text.into())
}

/// Far more than 1,024 bytes, some so many that 16 bits would count few. Whether such a text is in the grammar shows at its end.
pub fn long(random: &mut Xorshift) -> Input {
    let length =
        random.pick(&[2_000, 5_000, 65_534, 65_536, 65_600, 66_000, 131_072]) + random.below(5);
    let unit = random.pick(&["n1&", "T|", "!", "(", " ", ">=1 r2 ", "F & T | ", "(T)&"]);
    let mut text =
        unit.repeat(length / unit.len()) + random.pick(&["T", "n1", "n00", "", ")", "T)"]);
    if unit == "(" && random.percent(80) {
        let closed = length + random.pick(&[0, 0, 0, 1]) - random.pick(&[0, 0, 0, 1, 256]);
        text += &")".repeat(closed);
    }
    Input::new(random, "long", text.into())
}

/// Nothing at all, or nothing but spaces.
pub fn blank(random: &mut Xorshift) -> Input {
    let length = random.pick(&[0, 0, 1, 2, 7, 64, 1023, 1024, 1025, 70_000]);
    Input::new(random, "blank", vec![b' '; length])
}
