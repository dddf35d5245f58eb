//! The stack that a board call needs: the smallest thread that it comes back from.
//!
//! A stack that is too small ends the process. So each size is tried in a process of its own.

use crate::list;
use crate::side::library;
use hurnavis_comparison::boards::Board;
use hurnavis_comparison::layout::MOST_COPIES;
use std::env;
use std::process::{Command, ExitCode, Stdio};
use std::thread::Builder;

/// What the thread of a process does.
pub const BOARDS: &str = "--stack";
pub const NOTHING: &str = "--stack-empty";

/// The sizes that are tried, in KiB. No thread is smaller than the least.
const LEAST: usize = 16;
const MOST: usize = 256;
const STEP: usize = 4;

/// What was found, in words.
pub fn report() -> String {
    let call = "stack: the board call";
    match (smallest(BOARDS), smallest(NOTHING)) {
        (None, _) => format!("{call} does not fit in a thread of {MOST} KiB"),
        (Some(LEAST), _) => format!("{call} needs at most {LEAST} KiB, the smallest thread"),
        (Some(size), Some(empty)) if empty > LEAST => format!(
            "{call} fits in a thread of {size} KiB, {} more than an empty one",
            size - empty
        ),
        (Some(size), _) => format!("{call} fits in a thread of {size} KiB"),
    }
}

/// The smallest size that is enough, by halving.
fn smallest(work: &str) -> Option<usize> {
    if !survives(work, MOST) {
        return None;
    }
    let (mut low, mut high) = (LEAST / STEP, MOST / STEP);
    while low < high {
        let middle = (low + high) / 2;
        if survives(work, middle * STEP) {
            high = middle;
        } else {
            low = middle + 1;
        }
    }
    Some(high * STEP)
}

/// Whether a process with a thread of this size comes to its end.
fn survives(work: &str, size: usize) -> bool {
    let Ok(program) = env::current_exe() else {
        return false;
    };
    let status = Command::new(program)
        .args([work, &(size * 1024).to_string()])
        .stdout(Stdio::null())
        .stderr(Stdio::null())
        .status();
    status.is_ok_and(|status| status.success())
}

/// Does the work here, in a thread with a stack of so many bytes. The boards are made before it, on
/// another stack.
pub fn try_one(work: &str, bytes: &str) -> ExitCode {
    let builder = Builder::new().stack_size(bytes.parse().unwrap_or(0));
    let thread = match work {
        BOARDS => {
            let boards = boards();
            let mut words: Vec<Vec<u64>> = boards.iter().map(Board::words).collect();
            builder.spawn(move || {
                for (board, words) in boards.iter().zip(&mut words) {
                    library(&board.table, &board.structure, words);
                }
            })
        }
        _ => builder.spawn(|| ()),
    };
    match thread.map(|thread| thread.join()) {
        Ok(Ok(())) => ExitCode::SUCCESS,
        _ => ExitCode::FAILURE,
    }
}

/// Every board, those of the second table with as many copies as there can be.
fn boards() -> Vec<Board> {
    let copied = list::copied().into_iter();
    let copied = copied.map(|(_, board)| board.with_copies(MOST_COPIES));
    let without = list::all().into_iter().map(|(_, board)| board);
    without.chain(copied).collect()
}
