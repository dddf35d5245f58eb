//! Boards: the library beside the way that it took before change request P3, and beside a plain
//! evaluator; and the library on links with copies, beside itself on the same links without.
//!
//! `boards` compares the words of the three on each board, then measures them in turns. It does the
//! same with the library on one, two and four copies of every link, where the words are those of the
//! independent side. It prints Markdown tables of the times, and the stack that the library's call
//! needs. The exit status is 1 if some word differs; a time is never a reason.

mod copies;
mod list;
mod plain;
mod side;
mod stack;
mod turns;

use hurnavis_comparison::boards::Board;
use side::Side;
use std::env;
use std::process::ExitCode;
use turns::Run;

/// The head of the table, and the line under it.
const HEAD: &str = "\
| board | library | before | plain | before / library | library / plain |
|---|---|---|---|---|---|";
const FOOT: &str = "
before: the library's way until P3, ported to Rust; plain: each record read once. Neither checks
its input, nor counts copies; the library does.
";

fn main() -> ExitCode {
    let words: Vec<String> = env::args().skip(1).collect();
    let words: Vec<&str> = words.iter().map(String::as_str).collect();
    match words[..] {
        [] => all(),
        [work @ (stack::BOARDS | stack::NOTHING), bytes] => stack::try_one(work, bytes),
        _ => {
            eprintln!("usage: boards");
            ExitCode::FAILURE
        }
    }
}

/// Compares and measures, first without copies.
fn all() -> ExitCode {
    let measured = without_copies().and_then(|boards| Ok((boards, copies::all()?)));
    let (boards, copied) = match measured {
        Ok(measured) => measured,
        Err(differences) => {
            differences.iter().for_each(|line| println!("{line}"));
            return ExitCode::FAILURE;
        }
    };
    println!("{}", stack::report());
    println!("boards: the same words on {boards} boards, and on {copied} with copies");
    ExitCode::SUCCESS
}

/// The three sides on every board. Answers how many there are, or where words differ.
fn without_copies() -> Result<usize, Vec<String>> {
    let boards = list::all();
    let mut sides = Side::all();
    let differences: Vec<String> = boards
        .iter()
        .flat_map(|(name, board)| differences(name, board, &mut sides))
        .collect();
    if !differences.is_empty() {
        return Err(differences);
    }
    println!("{HEAD}");
    for (name, board) in &boards {
        println!("{}", row(name, board, &mut sides));
    }
    println!("{FOOT}");
    Ok(boards.len())
}

/// Where a side's words are not those of before.
fn differences(name: &str, board: &Board, sides: &mut [Side; 3]) -> Vec<String> {
    let [library, before, plain] = sides;
    let expected = before.words(board);
    let mut lines = Vec::new();
    for side in [library, plain] {
        for (entry, word) in side.words(board).iter().enumerate() {
            let other = expected[entry];
            if *word != other {
                let side = side.name;
                lines.push(format!(
                    "{name}: entry {entry}: {side} {word:#x}, before {other:#x}"
                ));
            }
        }
    }
    lines
}

/// The times of the three sides on the board.
fn row(name: &str, board: &Board, sides: &mut [Side; 3]) -> String {
    let runs = sides.each_mut().map(|side| Run::new(side, board));
    let [library, before, plain] = turns::measure(runs);
    format!(
        "| {name} | {} | {} | {} | {} | {} |",
        library.shown(),
        before.shown(),
        plain.shown(),
        before.ratio(&library),
        library.ratio(&plain),
    )
}
