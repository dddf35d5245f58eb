//! The library on boards with one, two and four copies of every link, in turns, so that the ratios
//! are of one run.

use crate::list;
use crate::side::Side;
use crate::turns::{self, Run};
use hurnavis_comparison::boards::Board;
use hurnavis_comparison::independent;

/// The numbers of copies, first that of a structure without.
const COPIES: [u8; 3] = [1, 2, 4];

const HEAD: &str = "\
| board | one copy of each link | two | four | two / one | four / one |
|---|---|---|---|---|---|";

/// Compares, then measures. Answers how many boards there are with more than one copy, or where
/// words differ.
pub fn all() -> Result<usize, Vec<String>> {
    let boards: Vec<(&str, [Board; 3])> = list::copied()
        .into_iter()
        .map(|(name, board)| (name, COPIES.map(|copies| board.with_copies(copies))))
        .collect();
    let differences: Vec<String> = boards
        .iter()
        .flat_map(|(name, boards)| boards.iter().flat_map(|board| differences(name, board)))
        .collect();
    if !differences.is_empty() {
        return Err(differences);
    }
    println!("{HEAD}");
    for (name, boards) in &boards {
        println!("{}", row(name, boards));
    }
    println!();
    Ok(boards.len() * (COPIES.len() - 1))
}

/// Where the library's words are not those of the independent side.
fn differences(name: &str, board: &Board) -> Vec<String> {
    let words = Side::library().words(board);
    match independent::board(&board.table, &board.structure, words.len()) {
        Err(fault) => vec![format!("{name}: independent {fault}")],
        Ok(expected) => words
            .iter()
            .zip(&expected)
            .enumerate()
            .filter(|(_, (word, other))| word != other)
            .map(|(entry, (word, other))| {
                format!("{name}: entry {entry}: library {word:#x}, independent {other:#x}")
            })
            .collect(),
    }
}

/// The times of the library on the three.
fn row(name: &str, boards: &[Board; 3]) -> String {
    let mut sides = COPIES.map(|_| Side::library());
    let [first, second, third] = &mut sides;
    let [one, two, four] = turns::measure([
        Run::new(first, &boards[0]),
        Run::new(second, &boards[1]),
        Run::new(third, &boards[2]),
    ]);
    format!(
        "| {name} | {} | {} | {} | {} | {} |",
        one.shown(),
        two.shown(),
        four.shown(),
        two.ratio(&one),
        four.ratio(&one),
    )
}

#[cfg(test)]
mod tests {
    use super::*;

    #[test]
    fn the_library_gives_the_independent_words() {
        for (name, board) in list::copied() {
            for copies in 1..=4 {
                let differences = differences(name, &board.with_copies(copies));
                assert!(differences.is_empty(), "{differences:?}");
            }
        }
    }

    /// On a board where no copy makes a difference the times would say little.
    #[test]
    fn copies_change_most_of_the_boards() {
        let changed = list::copied().into_iter().filter(|(_, board)| {
            let words = |copies| {
                let board = board.with_copies(copies);
                independent::board(&board.table, &board.structure, board.table.len() / 4)
            };
            words(1) != words(4)
        });
        assert!(changed.count() >= 7);
    }
}
