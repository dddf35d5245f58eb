//! The five marks.

use std::fmt;

/// How an answer that holds somewhere stands to its model, or that the answer holds nowhere.
///
/// ```
/// use hurnavis::Mark;
///
/// assert_eq!(Mark::Narrower.number(), 1);
/// assert_eq!(Mark::Narrower.to_string(), "narrower");
/// assert_eq!(Mark::Impossible.number(), 4);
/// ```
#[derive(Clone, Copy, Debug, PartialEq, Eq, Hash)]
#[non_exhaustive]
pub enum Mark {
    /// They hold at the same worlds of every finite structure, and there are such worlds.
    Equal = 0,
    /// The answer never holds without the model, the model somewhere without the answer.
    Narrower = 1,
    /// The model never holds without the answer, the answer somewhere without the model.
    Wider = 2,
    /// Each holds somewhere without the other.
    Crossing = 3,
    /// The answer holds at no world of any finite structure, whatever the model is.
    Impossible = 4,
}

impl Mark {
    /// The number of the mark, which the mark sheet prints and the call for C writes.
    #[must_use]
    pub fn number(self) -> u8 {
        self as u8
    }

    /// The mark with this number, if there is one.
    pub(crate) fn from_number(number: u8) -> Option<Mark> {
        [
            Mark::Equal,
            Mark::Narrower,
            Mark::Wider,
            Mark::Crossing,
            Mark::Impossible,
        ]
        .into_iter()
        .find(|m| m.number() == number)
    }
}

impl fmt::Display for Mark {
    fn fmt(&self, f: &mut fmt::Formatter<'_>) -> fmt::Result {
        f.pad(match self {
            Mark::Equal => "equal",
            Mark::Narrower => "narrower",
            Mark::Wider => "wider",
            Mark::Crossing => "crossing",
            Mark::Impossible => "impossible",
        })
    }
}
