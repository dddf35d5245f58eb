//! What came of a call: its answer or its refusal.

use hurnavis::Fault;

/// An answer, or the number of the refusal.
pub type Outcome = Result<u64, u32>;

/// The outcome of a call that returned this status, where the lent place of its answer was `before` and is `after`. A refusal
/// leaves the place as it was.
pub fn outcome<T>(call: &str, status: u32, before: T, after: T) -> Result<Outcome, String>
where
    T: PartialEq + Into<u64>,
{
    match status {
        0 => Ok(Ok(after.into())),
        _ if after == before => Ok(Err(status)),
        _ => Err(format!(
            "{call} was refused and changed the place of its answer"
        )),
    }
}

/// The outcome of a call that has nothing to answer.
pub fn done(status: u32) -> Outcome {
    match status {
        0 => Ok(0),
        _ => Err(status),
    }
}

/// That the outcome is the expected one.
pub fn same(call: &str, outcome: Outcome, expected: Result<u64, Fault>) -> Result<(), String> {
    let expected = expected.map_err(Fault::number);
    if outcome == expected {
        return Ok(());
    }
    Err(format!("{call}: {}, not {}", said(outcome), said(expected)))
}

fn said(outcome: Outcome) -> String {
    match outcome {
        Ok(answer) => format!("answer {answer}"),
        Err(number) => format!("refused {number}"),
    }
}

#[cfg(test)]
mod tests {
    use super::*;

    #[test]
    fn a_refusal_leaves_the_place_of_the_answer() {
        assert_eq!(outcome("call", 0, 9u8, 1), Ok(Ok(1)));
        assert_eq!(outcome("call", 4, 9u8, 9), Ok(Err(4)));
        assert!(outcome("call", 4, 9u8, 0).is_err());
    }

    #[test]
    fn a_refusal_is_the_number_itself() {
        assert_eq!(same("call", Err(2), Err(Fault::Kind)), Ok(()));
        assert!(same("call", Err(258), Err(Fault::Kind)).is_err());
        assert!(same("call", Ok(2), Err(Fault::Kind)).is_err());
        assert!(same("call", Ok(0), Ok(1)).is_err());
    }
}
