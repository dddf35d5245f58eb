//! The refusals, with their numbers and what they say in words.

use std::error::Error;
use std::fmt;

/// Why a call was refused. A refused call changes nothing that was lent to it.
///
/// The first fault in order counts: 1; then entry by entry 2, 3, 4; then 6; then record by record 7, 8; then 9; then 10. A call
/// skips what it does not take. The faults of a typed text are in the order 11, 12, 10, those of a step on a draft in the order
/// 16, 1, 2, 3, 4. Later calls add faults. No fault has the number 5: it was for depths over 63, which no table has that is
/// accepted otherwise.
///
/// ```
/// use hurnavis::{check_table, Fault};
///
/// // One entry of kind 8: there is no such kind.
/// let fault = check_table(&[0x80, 0, 0, 0]).unwrap_err();
/// assert_eq!(fault, Fault::Kind);
/// assert_eq!(fault.number(), 2);
/// assert_eq!(fault.to_string(), "refused 2: an entry's kind is over 7, and there are only 0 to 7");
/// ```
#[derive(Clone, Copy, Debug, PartialEq, Eq, PartialOrd, Ord, Hash)]
#[non_exhaustive]
pub enum Fault {
    /// 1: a table of length 0, over 256 bytes, or not a multiple of 4. For [`Draft::add`](crate::Draft::add), a 65th entry.
    TableLength = 1,
    /// 2: a kind from 8 to 15.
    Kind = 2,
    /// 3: a field that its kind does not use is not 0.
    UnusedField = 3,
    /// 4: a used reference is not smaller than the entry's own number.
    Reference = 4,
    /// 6: a structure of length 0, over 3,072 bytes, or not a multiple of 3.
    StructureLength = 6,
    /// 7: a first record that is no header, a later one that is, a kind 3, or a zero bit of the header or of a fact that is 1.
    /// The last two bits of a link are no zero bits: they are its copies less 1.
    Record = 7,
    /// 8: a world that is not below the number of worlds.
    World = 8,
    /// 9: an entry number that is not below the number of entries.
    EntryNumber = 9,
    /// 10: fewer lent words than the call needs: [`work_words`](crate::work_words), or for the board one for each entry. For
    /// [`read_text`](crate::read_text), fewer lent bytes than 4 for each entry.
    Space = 10,
    /// 11: a text outside the grammar of [`read_text`](crate::read_text), the empty text included.
    TextGrammar = 11,
    /// 12: a text of over 1,024 bytes, with a number over 255 or with over 64 entries.
    TextLimit = 12,
    /// 16: a draft that no steps from a fresh one give, a name over 15 or, when coming back, one that is not saved.
    Draft = 16,
}

/// Every fault, in the order of the numbers.
const ALL: [Fault; 12] = [
    Fault::TableLength,
    Fault::Kind,
    Fault::UnusedField,
    Fault::Reference,
    Fault::StructureLength,
    Fault::Record,
    Fault::World,
    Fault::EntryNumber,
    Fault::Space,
    Fault::TextGrammar,
    Fault::TextLimit,
    Fault::Draft,
];

impl Fault {
    /// The number of the refusal, which the calls for C return.
    #[must_use]
    pub fn number(self) -> u32 {
        self as u32
    }

    /// The fault with this number, if there is one.
    pub(crate) fn from_number(number: u32) -> Option<Fault> {
        ALL.into_iter().find(|f| f.number() == number)
    }

    fn words(self) -> &'static str {
        match self {
            Fault::TableLength => {
                "the table does not have 1 to 64 whole entries: its length is 0, over 256 bytes, or not a multiple of 4"
            }
            Fault::Kind => "an entry's kind is over 7, and there are only 0 to 7",
            Fault::UnusedField => "an entry has something in a field that its kind does not use",
            Fault::Reference => "an entry refers to itself or to a later one",
            Fault::StructureLength => {
                "the structure does not have 1 to 1,024 whole records: its length is 0, over 3,072 bytes, or not a multiple of 3"
            }
            Fault::Record => {
                "a record of the structure has a kind that cannot stand there, or a bit that is 1 and has to be 0"
            }
            Fault::World => "a record names a world that the structure does not have",
            Fault::EntryNumber => "the table has no entry with the number that the call asks about",
            Fault::Space => "the lent words or bytes are fewer than the call needs",
            Fault::TextGrammar => "the text is empty, or not written as descriptions are",
            Fault::TextLimit => {
                "the text is over 1,024 bytes long, has a number over 255, or makes over 64 entries"
            }
            Fault::Draft => {
                "no steps from a fresh draft give this one, or the name is over 15 or not saved"
            }
        }
    }
}

impl fmt::Display for Fault {
    fn fmt(&self, f: &mut fmt::Formatter<'_>) -> fmt::Result {
        write!(f, "refused {}: {}", self.number(), self.words())
    }
}

impl Error for Fault {}

#[cfg(test)]
mod tests {
    use super::*;

    #[test]
    fn numbers_go_both_ways() {
        let numbers = [1, 2, 3, 4, 6, 7, 8, 9, 10, 11, 12, 16];
        for (number, fault) in numbers.into_iter().zip(ALL) {
            assert_eq!(fault.number(), number);
            assert_eq!(Fault::from_number(number), Some(fault));
        }
        for unused in [0, 5, 13, 14, 15, 17] {
            assert_eq!(Fault::from_number(unused), None);
        }
    }
}
