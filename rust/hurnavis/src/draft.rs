//! Drafts to return to.

use crate::entry::MOST_ENTRIES;
use crate::{accepted, raw, Fault};

/// How many names there are.
const NAMES: usize = 16;
/// Where the number of entries stands, behind the entries, and where the saved lengths begin.
const COUNT: usize = 4 * MOST_ENTRIES;
const SAVED: usize = COUNT + 1;
const BYTES: usize = SAVED + NAMES;
/// In the place of a saved length, if the name is not saved.
const NOT_SAVED: u8 = 255;

/// A table under composition: it grows by one entry after the other, is saved under names, 0 to 15, and one can come back to
/// what was saved.
///
/// ```
/// use hurnavis::{entry, mark, work_words, Draft, Fault, Mark};
///
/// // What the numbers stand for is yours to say.
/// const DOCTOR: u8 = 1; // a fact
/// const CHILD: u8 = 7; // a relation
///
/// // Entry 1 is the model: at least 2 children who are doctors.
/// let mut draft = Draft::new();
/// draft.add(entry::fact(DOCTOR))?;
/// draft.add(entry::at_least(2, CHILD, 0))?;
/// draft.save(0)?;
///
/// // A first answer, which is saved too.
/// draft.add(entry::at_least(3, CHILD, 0))?;
/// draft.save(1)?;
///
/// // Back to the model: of the answer neither the entry nor the name is left.
/// draft.back(0)?;
/// assert_eq!(draft.count(), 2);
/// assert_eq!(draft.back(1), Err(Fault::Draft));
///
/// // Another answer. The calls take the draft's table.
/// draft.add(entry::at_least(1, CHILD, 0))?;
/// let mut words = vec![0; work_words(draft.table(), 1, 2)?];
/// assert_eq!(mark(draft.table(), 1, 2, &mut words)?, Mark::Wider);
/// # Ok::<(), hurnavis::Fault>(())
/// ```
///
/// A step that is refused changes nothing.
#[derive(Clone, Debug, PartialEq, Eq)]
pub struct Draft {
    bytes: [u8; BYTES],
}

impl Draft {
    /// A fresh draft: no entries, and no name saved.
    #[must_use]
    pub fn new() -> Draft {
        let mut bytes = [0; BYTES];
        accepted(raw::draft_new(&mut bytes)).expect("the length is a draft's");
        Draft { bytes }
    }

    /// The draft with these bytes, as [`bytes`](Draft::bytes) gives them. Anything may stand in them: on a draft that no steps
    /// from a fresh one give, every step is refused as [`Fault::Draft`].
    #[must_use]
    pub fn from_bytes(bytes: [u8; BYTES]) -> Draft {
        Draft { bytes }
    }

    /// The draft as the calls for C have it: 64 entries of 4 bytes, of which those behind the last are 0, the number of entries,
    /// and for each name the number of entries that it was saved with, or 255.
    #[must_use]
    pub fn bytes(&self) -> &[u8; BYTES] {
        &self.bytes
    }

    /// Adds an entry, one that [`entry`](crate::entry) makes. Its number is the [`count`](Draft::count) before.
    ///
    /// ```
    /// use hurnavis::{entry, Draft, Fault};
    ///
    /// let mut draft = Draft::new();
    /// assert_eq!(draft.add(entry::not(0)), Err(Fault::Reference));
    /// assert_eq!(draft.add(entry::fact(1)), Ok(()));
    /// assert_eq!(draft.add(entry::not(0)), Ok(()));
    /// assert_eq!(draft.table(), [0x20, 0x10, 0, 0, 0x30, 0, 0, 0]);
    /// ```
    pub fn add(&mut self, entry: u32) -> Result<(), Fault> {
        accepted(raw::draft_add(&mut self.bytes, entry))
    }

    /// Saves the draft under a name from 0 to 15. What was saved under it before is replaced.
    pub fn save(&mut self, name: u8) -> Result<(), Fault> {
        accepted(raw::draft_save(&mut self.bytes, name))
    }

    /// Comes back to what was saved under the name: its entries, and no others. Names that were saved with more entries are
    /// forgotten; this one, and those with as many or fewer, stay.
    pub fn back(&mut self, name: u8) -> Result<(), Fault> {
        accepted(raw::draft_back(&mut self.bytes, name))
    }

    /// The number of entries. It is 64, if the bytes that the draft was made from say more.
    #[must_use]
    pub fn count(&self) -> usize {
        MOST_ENTRIES.min(self.bytes[COUNT].into())
    }

    /// How many entries were saved under the name; nothing, if it is not saved.
    ///
    /// ```
    /// use hurnavis::Draft;
    ///
    /// let mut draft = Draft::new();
    /// assert_eq!(draft.saved(15), None);
    /// draft.save(15)?;
    /// assert_eq!(draft.saved(15), Some(0));
    /// # Ok::<(), hurnavis::Fault>(())
    /// ```
    #[must_use]
    pub fn saved(&self, name: u8) -> Option<usize> {
        let length = *self.bytes[SAVED..].get(usize::from(name))?;
        (length != NOT_SAVED).then_some(length.into())
    }

    /// The entries as a table, for the other calls. They refuse that of no entries, and check every other.
    #[must_use]
    pub fn table(&self) -> &[u8] {
        &self.bytes[..4 * self.count()]
    }
}

impl Default for Draft {
    fn default() -> Draft {
        Draft::new()
    }
}

#[cfg(test)]
mod tests {
    use super::*;
    use crate::{check_table, entry};

    #[test]
    fn whatever_the_bytes_are_the_table_is_one_of_64_entries_at_most() {
        for count in 0..=255 {
            let mut bytes = *Draft::new().bytes();
            bytes[COUNT] = count;
            let draft = Draft::from_bytes(bytes);
            assert_eq!(draft.count(), usize::from(count).min(64));
            assert_eq!(draft.table().len(), 4 * draft.count());
        }
    }

    #[test]
    fn damaged_bytes_are_kept_and_every_step_on_them_is_refused() {
        let mut bytes = *Draft::new().bytes();
        bytes[COUNT] = 65;
        let mut draft = Draft::from_bytes(bytes);
        assert_eq!(draft.add(entry::truth()), Err(Fault::Draft));
        assert_eq!(draft.save(0), Err(Fault::Draft));
        assert_eq!(draft.back(0), Err(Fault::Draft));
        assert_eq!(draft.bytes(), &bytes);
    }

    #[test]
    fn each_name_has_its_length() {
        let mut draft = Draft::new();
        for name in 0..16 {
            assert_eq!(draft.save(name), Ok(()));
            assert_eq!(draft.add(entry::fact(name)), Ok(()));
        }
        for name in 0..16 {
            assert_eq!(draft.saved(name), Some(name.into()));
        }
        assert_eq!(draft.saved(16), None);
        assert_eq!(draft.saved(255), None);
        assert_eq!(check_table(draft.table()), Ok(()));
    }

    #[test]
    fn a_draft_goes_through_its_bytes() {
        let mut draft = Draft::default();
        assert_eq!(draft.add(entry::fact(1)), Ok(()));
        assert_eq!(draft.save(3), Ok(()));
        assert_eq!(Draft::from_bytes(*draft.bytes()), draft);
        assert_ne!(draft, Draft::new());
    }
}
