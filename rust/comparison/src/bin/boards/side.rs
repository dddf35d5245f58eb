//! The ways to fill a board's words, each called through a pointer, so that none is built into the
//! loop that measures it.

use crate::plain::Plain;
use hurnavis_comparison::before;
use hurnavis_comparison::boards::Board;

pub struct Side {
    pub name: &'static str,
    /// Takes a table, a structure and the words.
    pub fill: Box<Fill>,
}

type Fill = dyn FnMut(&[u8], &[u8], &mut [u64]);

impl Side {
    /// The library, the way it took before, and the plain evaluator.
    pub fn all() -> [Side; 3] {
        let mut plain = Plain::new();
        [
            Side::library(),
            Side::new("before", before::board),
            Side::new("plain", move |t, s, w| plain.board(t, s, w)),
        ]
    }

    pub fn library() -> Side {
        Side::new("library", library)
    }

    fn new(name: &'static str, fill: impl FnMut(&[u8], &[u8], &mut [u64]) + 'static) -> Side {
        Side {
            name,
            fill: Box::new(fill),
        }
    }

    /// The words of the board.
    pub fn words(&mut self, board: &Board) -> Vec<u64> {
        let mut words = board.words();
        (self.fill)(&board.table, &board.structure, &mut words);
        words
    }
}

/// The boards measured have no faults.
pub fn library(table: &[u8], structure: &[u8], words: &mut [u64]) {
    hurnavis::board(table, structure, words)
        .unwrap_or_else(|fault| panic!("a measured board is refused: {fault}"));
}

#[cfg(test)]
mod tests {
    use super::*;
    use crate::list;
    use hurnavis::Writer;
    use hurnavis_comparison::independent;

    /// Document 01's M1 to M9, behind the entries that they are made of.
    fn examples() -> Board {
        let mut t = Writer::new();
        let (one, two) = (t.fact(1), t.fact(2));
        let (no, yes) = (t.falsity(), t.truth());
        let not_two = t.not(two);
        let m1 = t.at_least(2, 7, one);
        t.at_least(3, 7, one);
        t.at_most(1, 7, two);
        t.at_most(0, 7, two);
        t.at_least(0, 7, no);
        t.not(m1);
        t.at_least(1, 8, one);
        t.and(one, not_two);
        t.at_most(0, 7, yes);
        Board {
            table: t.bytes(),
            structure: list::EXAMPLE.to_vec(),
        }
    }

    #[test]
    fn every_side_gives_document_01s_words() {
        for mut side in Side::all() {
            let words = side.words(&examples());
            assert_eq!(words[..5], [6, 4, 0, 7, 3], "{}", side.name);
            assert_eq!(words[5..], [1, 0, 7, 6, 7, 6, 0, 2, 6], "{}", side.name);
        }
    }

    /// In both orders, so that no board depends on the one before it.
    #[test]
    fn every_side_gives_the_independent_words() {
        let boards = list::all();
        for mut side in Side::all() {
            for (name, board) in boards.iter().chain(boards.iter().rev()) {
                let words = side.words(board);
                let expected = independent::board(&board.table, &board.structure, words.len());
                assert_eq!(Ok(words), expected, "{} on {name}", side.name);
            }
        }
    }
}
