//! Writes a table entry by entry.

use crate::entry::{self, MOST_ENTRIES};
use crate::{read_text, Fault};

/// A table under construction: each method writes one description, an entry, and returns its number, by which later
/// entries and the calls name it.
///
/// Facts and relations are numbered from 0 to 255, and what they stand for is the caller's affair.
///
/// ```
/// use hurnavis::{check_table, Writer};
///
/// let mut table = Writer::new();
/// let p = table.fact(1);
/// let two = table.at_least(2, 7, p);
/// assert_eq!((p, two), (0, 1));
/// assert_eq!(table.bytes(), [0x20, 0x10, 0, 0, 0x60, 0x70, 0, 2]);
/// assert_eq!(check_table(&table.bytes()), Ok(()));
/// ```
///
/// The writer itself refuses nothing, and loses nothing: a table of which the format has no room for some part is refused
/// by every call. A table of no entries or over 64 is [`Fault::TableLength`](crate::Fault::TableLength), and a reference to
/// an entry that is not written yet, however great its number, is [`Fault::Reference`](crate::Fault::Reference).
///
/// ```
/// use hurnavis::{check_table, Fault, Writer};
///
/// let mut table = Writer::new();
/// table.not(256);
/// assert_eq!(check_table(&table.bytes()), Err(Fault::Reference));
/// ```
#[derive(Clone, Debug, Default, PartialEq, Eq)]
pub struct Writer {
    entries: Vec<u32>,
}

impl Writer {
    /// A table without entries.
    #[must_use]
    pub fn new() -> Writer {
        Writer::default()
    }

    /// The number of entries written.
    #[must_use]
    pub fn count(&self) -> usize {
        self.entries.len()
    }

    /// The table as the calls take it.
    #[must_use]
    pub fn bytes(&self) -> Vec<u8> {
        self.entries.iter().flat_map(|e| e.to_be_bytes()).collect()
    }

    /// True, everywhere.
    pub fn truth(&mut self) -> usize {
        self.push(entry::truth())
    }

    /// False, everywhere.
    pub fn falsity(&mut self) -> usize {
        self.push(entry::falsity())
    }

    /// The fact of this name.
    pub fn fact(&mut self, name: u8) -> usize {
        self.push(entry::fact(name))
    }

    /// Not the part.
    pub fn not(&mut self, part: usize) -> usize {
        self.push(entry::not(part))
    }

    /// The first and the second.
    pub fn and(&mut self, first: usize, second: usize) -> usize {
        self.push(entry::and(first, second))
    }

    /// The first or the second, or both.
    pub fn or(&mut self, first: usize, second: usize) -> usize {
        self.push(entry::or(first, second))
    }

    /// At least so many links of the relation lead to worlds where the part holds.
    pub fn at_least(&mut self, grade: u8, relation: u8, part: usize) -> usize {
        self.push(entry::at_least(grade, relation, part))
    }

    /// At most so many links of the relation lead to worlds where the part holds.
    pub fn at_most(&mut self, grade: u8, relation: u8, part: usize) -> usize {
        self.push(entry::at_most(grade, relation, part))
    }

    /// All of the parts, by an "and" between each two; true, if there are none.
    pub fn all(&mut self, parts: &[usize]) -> usize {
        match parts {
            [] => self.truth(),
            [first, rest @ ..] => rest.iter().fold(*first, |all, part| self.and(all, *part)),
        }
    }

    /// One of the parts or more, by an "or" between each two; false, if there are none.
    pub fn any(&mut self, parts: &[usize]) -> usize {
        match parts {
            [] => self.falsity(),
            [first, rest @ ..] => rest.iter().fold(*first, |any, part| self.or(any, *part)),
        }
    }

    /// What somebody typed, in the signs of [`read_text`]: its entries are written behind those that are there, and share
    /// nothing with them. A refused text writes none.
    ///
    /// ```
    /// use hurnavis::{mark, work_words, Mark, Writer};
    ///
    /// let mut table = Writer::new();
    /// let model = table.text(">=2 r7 n1")?;
    /// let answer = table.text(">=3 r7 n1")?;
    /// assert_eq!((model, answer), (1, 3));
    ///
    /// let table = table.bytes();
    /// let mut words = vec![0; work_words(&table, model, answer)?];
    /// assert_eq!(mark(&table, model, answer, &mut words)?, Mark::Narrower);
    /// # Ok::<(), hurnavis::Fault>(())
    /// ```
    pub fn text(&mut self, text: impl AsRef<[u8]>) -> Result<usize, Fault> {
        let mut table = [0; 4 * MOST_ENTRIES];
        let count = read_text(text, &mut table)?;
        let before = self.count();
        for entry in entry::entries(&table[..4 * count]) {
            let mut parts = entry.parts().map(|part| before + part);
            let (first, second) = (parts.next().unwrap_or(0), parts.next().unwrap_or(0));
            let moved = entry::pack(entry.kind, entry.name, first, second, entry.grade);
            self.push(moved);
        }
        Ok(before + count - 1)
    }

    /// The entry behind the others. The number is its own.
    fn push(&mut self, entry: u32) -> usize {
        self.entries.push(entry);
        self.entries.len() - 1
    }
}

#[cfg(test)]
mod tests {
    use super::*;
    use crate::check_table;

    #[test]
    fn a_reference_that_is_not_earlier_is_refused_at_every_entry() {
        for number in 0..64 {
            for to in [number, number + 1, 63, 64, 256, usize::MAX] {
                let mut table = Writer::new();
                for _ in 0..number {
                    table.fact(0);
                }
                table.not(to);
                let checked = check_table(&table.bytes());
                assert_eq!(checked, Err(Fault::Reference), "entry {number} to {to}");
            }
        }
    }

    #[test]
    fn no_entries_and_more_than_64_are_refused() {
        let mut table = Writer::new();
        assert_eq!(check_table(&table.bytes()), Err(Fault::TableLength));
        let mut last = table.fact(0);
        for _ in 1..64 {
            last = table.not(last);
        }
        assert_eq!(check_table(&table.bytes()), Ok(()));
        table.not(last);
        assert_eq!(check_table(&table.bytes()), Err(Fault::TableLength));
    }

    #[test]
    fn all_and_any_of_none() {
        let mut table = Writer::new();
        assert_eq!((table.all(&[]), table.any(&[])), (0, 1));
        assert_eq!(table.bytes(), [0, 0, 0, 0, 0x10, 0, 0, 0]);
    }

    #[test]
    fn a_text_stands_behind_what_is_there() {
        let mut table = Writer::new();
        assert_eq!(table.text("n1 | !n2"), Ok(3));
        assert_eq!(table.text("n1 | !"), Err(Fault::TextGrammar));
        assert_eq!(table.text("<=255 r254 (F & T)"), Ok(7));
        let mut same = Writer::new();
        let parts = [same.fact(1), same.fact(2)];
        let without = same.not(parts[1]);
        same.or(parts[0], without);
        let parts = [same.falsity(), same.truth()];
        let both = same.and(parts[0], parts[1]);
        same.at_most(255, 254, both);
        assert_eq!(table, same);
    }

    #[test]
    fn texts_of_too_many_entries_together_are_refused() {
        let mut table = Writer::new();
        let text = "!".repeat(31) + "T";
        assert_eq!(table.text(&text), Ok(31));
        assert_eq!(table.text(&text), Ok(63));
        assert_eq!(check_table(&table.bytes()), Ok(()));
        assert_eq!(table.text(&text), Ok(95));
        assert_eq!(check_table(&table.bytes()), Err(Fault::TableLength));
    }
}
