//! One random input: a text and how many bytes are lent for its table.

use crate::tree::{Style, Tree};
use hurnavis_comparison::independent::text;
use hurnavis_comparison::layout::{Entry, MOST_ENTRIES};
use hurnavis_comparison::xorshift::Xorshift;

pub struct Input {
    pub family: &'static str,
    pub text: Vec<u8>,
    pub lent: usize,
    /// The entries, where the text was typed from a tree of no more than a table holds.
    pub known: Option<Vec<Entry>>,
}

impl Input {
    /// A text of which nothing is known.
    pub fn new(random: &mut Xorshift, family: &'static str, text: Vec<u8>) -> Input {
        Input {
            family,
            lent: lent(random, &text),
            text,
            known: None,
        }
    }

    /// The tree as it may be typed.
    pub fn typed(random: &mut Xorshift, family: &'static str, tree: &Tree) -> Input {
        let style = Style::draw(random);
        let text = tree.typed(random, &style);
        Input {
            known: (tree.size() <= MOST_ENTRIES).then(|| tree.entries()),
            ..Input::new(random, family, text)
        }
    }
}

/// Enough bytes, more, or too few by one or by many.
fn lent(random: &mut Xorshift, text: &[u8]) -> usize {
    let Ok(entries) = text::read(text, usize::MAX) else {
        return random.pick(&[256, 256, 300, 4, 3, 0]);
    };
    let needed = 4 * entries.len();
    match random.below(12) {
        0..=2 => needed - 1,
        3..=5 => needed,
        6 => needed + 1,
        7 => needed + random.below(300),
        8 => needed - random.between(1, needed),
        9 => 0,
        _ => 256.max(needed),
    }
}
