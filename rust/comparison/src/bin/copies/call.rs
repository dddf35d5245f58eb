//! One board call of the library, with garbage in and around the lent words, and every word looked at afterwards.

use crate::input::Input;
use crate::tally::Tally;
use hurnavis::{raw, Fault};
use hurnavis_comparison::trial::lent::{garbage, untouched};
use hurnavis_comparison::trial::outcome::{done, same};
use hurnavis_comparison::xorshift::Xorshift;
use std::time::Instant;

/// So many words before and behind the lent ones belong to nobody.
const AROUND: usize = 5;

/// What a board call has to come to: the words of the entries, or the refusal.
pub type Board = Result<Vec<u64>, Fault>;

/// Calls the library with the input's table and this structure, and says where it does not do what it has to. The words of the
/// entries are written and nothing else; after a refusal nothing at all.
pub fn board(
    input: &Input,
    structure: &[u8],
    expected: &Board,
    random: &mut Xorshift,
    tally: &mut Tally,
) -> Result<(), String> {
    let before = garbage(random, input.lent + 2 * AROUND);
    let mut after = before.clone();
    let lent = &mut after[AROUND..AROUND + input.lent];
    let started = Instant::now();
    let status = raw::board(&input.table, structure, lent);
    tally.in_library += started.elapsed();
    tally.board.note(done(status).map(|_| None));

    let wanted = expected.as_ref().map(|_| 0).map_err(|fault| *fault);
    same("board", done(status), wanted)?;
    let mut left = before;
    if let Ok(words) = expected {
        let written = AROUND..AROUND + words.len();
        if after[written.clone()] != words[..] {
            return Err(format!(
                "board wrote {:x?}, not {words:x?}",
                &after[written]
            ));
        }
        left[written].copy_from_slice(words);
    }
    untouched("board", &left, &after)
}
