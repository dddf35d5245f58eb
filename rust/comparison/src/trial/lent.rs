//! What is lent to a call, and whether it left alone what it had to leave.

use super::outcome::Outcome;
use crate::xorshift::Xorshift;

/// What is no answer of a decision or a mark, so that a place that is not written shows, and one that is written too.
pub fn no_answer(random: &mut Xorshift) -> u8 {
    random.between(5, 255) as u8
}

/// What is no number of words that a call can need: those are even.
pub fn no_words(random: &mut Xorshift) -> u64 {
    random.word() | 1
}

/// What stands in lent words has no influence, so anything does.
pub fn garbage(random: &mut Xorshift, count: usize) -> Vec<u64> {
    let fill = random.word();
    let sort = random.below(3);
    (0..count)
        .map(|_| match sort {
            0 => random.word(),
            1 => u64::MAX,
            _ => fill,
        })
        .collect()
}

pub fn untouched(call: &str, before: &[u64], after: &[u64]) -> Result<(), String> {
    if before == after {
        return Ok(());
    }
    Err(format!("{call} changed a word that it had to leave"))
}

/// The lent words after an answer: the first W are 0, the others as before; after a refusal all as before.
pub fn worked(
    call: &str,
    outcome: Outcome,
    needed: usize,
    before: &[u64],
    after: &[u64],
) -> Result<(), String> {
    if outcome.is_err() {
        return untouched(call, before, after);
    }
    if after[..needed].iter().any(|w| *w != 0) {
        return Err(format!("{call} left a word that is not 0"));
    }
    untouched(call, &before[needed..], &after[needed..])
}

#[cfg(test)]
mod tests {
    use super::*;

    #[test]
    fn words_are_cleared_after_an_answer_only() {
        let (before, cleared) = ([7, 7, 7], [0, 0, 7]);
        assert_eq!(worked("call", Ok(1), 2, &before, &cleared), Ok(()));
        assert!(worked("call", Ok(1), 3, &before, &cleared).is_err());
        assert!(worked("call", Ok(1), 1, &before, &cleared).is_err());
        assert_eq!(worked("call", Err(9), 2, &before, &before), Ok(()));
        assert!(worked("call", Err(9), 2, &before, &cleared).is_err());
    }
}
