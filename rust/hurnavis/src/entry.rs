//! Single entries, as [`Draft::add`](crate::Draft::add) takes them. [`Writer`](crate::Writer) writes the same ones into a table.
//!
//! An entry is a number of 32 bits: kind 4 bits, name 8, first 6, second 6, grade 8, most significant first. A part is the number
//! of an earlier entry. One that does not fit is refused wherever the entry is added: it becomes 63, which is earlier than no
//! entry.
//!
//! ```
//! use hurnavis::entry;
//!
//! assert_eq!(entry::fact(1), 0x2010_0000);
//! assert_eq!(entry::at_least(2, 7, 0), 0x6070_0002);
//! ```

pub(crate) const TRUE: u32 = 0;
pub(crate) const FALSE: u32 = 1;
pub(crate) const FACT: u32 = 2;
pub(crate) const NOT: u32 = 3;
pub(crate) const AND: u32 = 4;
pub(crate) const OR: u32 = 5;
pub(crate) const AT_LEAST: u32 = 6;
pub(crate) const AT_MOST: u32 = 7;

/// The most entries of a table.
pub(crate) const MOST_ENTRIES: usize = 64;

/// The greatest entry number that fits into a reference.
const GREATEST_REFERENCE: usize = MOST_ENTRIES - 1;

/// True, everywhere.
#[must_use]
pub fn truth() -> u32 {
    pack(TRUE, 0, 0, 0, 0)
}

/// False, everywhere.
#[must_use]
pub fn falsity() -> u32 {
    pack(FALSE, 0, 0, 0, 0)
}

/// The fact of this name.
#[must_use]
pub fn fact(name: u8) -> u32 {
    pack(FACT, name, 0, 0, 0)
}

/// Not the part.
#[must_use]
pub fn not(part: usize) -> u32 {
    pack(NOT, 0, part, 0, 0)
}

/// The first and the second.
#[must_use]
pub fn and(first: usize, second: usize) -> u32 {
    pack(AND, 0, first, second, 0)
}

/// The first or the second, or both.
#[must_use]
pub fn or(first: usize, second: usize) -> u32 {
    pack(OR, 0, first, second, 0)
}

/// At least so many links of the relation lead to worlds where the part holds.
#[must_use]
pub fn at_least(grade: u8, relation: u8, part: usize) -> u32 {
    pack(AT_LEAST, relation, part, 0, grade)
}

/// At most so many links of the relation lead to worlds where the part holds.
#[must_use]
pub fn at_most(grade: u8, relation: u8, part: usize) -> u32 {
    pack(AT_MOST, relation, part, 0, grade)
}

/// Each field in its place.
pub(crate) fn pack(kind: u32, name: u8, first: usize, second: usize, grade: u8) -> u32 {
    let fields = [
        kind << 28,
        u32::from(name) << 20,
        reference(first) << 14,
        reference(second) << 8,
        u32::from(grade),
    ];
    fields.into_iter().sum()
}

/// A number that does not fit becomes the greatest that does. In a table of up to 64 entries that one is no smaller than the
/// entry's own number, so that the table is refused as it has to be; a longer table is refused anyway.
fn reference(to: usize) -> u32 {
    to.min(GREATEST_REFERENCE) as u32
}

/// An entry taken apart.
#[derive(Clone, Copy, Debug, PartialEq, Eq)]
pub(crate) struct Entry {
    pub kind: u32,
    pub name: u8,
    pub first: usize,
    pub second: usize,
    pub grade: u8,
}

impl Entry {
    fn unpack(word: u32) -> Entry {
        Entry {
            kind: word >> 28,
            name: (word >> 20) as u8,
            first: (word >> 14 & 63) as usize,
            second: (word >> 8 & 63) as usize,
            grade: word as u8,
        }
    }

    /// The entries that this one is made of, by their numbers.
    pub fn parts(&self) -> impl Iterator<Item = usize> {
        let first = (self.kind >= NOT).then_some(self.first);
        let second = matches!(self.kind, AND | OR).then_some(self.second);
        first.into_iter().chain(second)
    }
}

/// The entries of a table, one for each 4 bytes.
pub(crate) fn entries(table: &[u8]) -> Vec<Entry> {
    let word = |bytes: &[u8]| u32::from_be_bytes([bytes[0], bytes[1], bytes[2], bytes[3]]);
    table
        .chunks_exact(4)
        .map(|bytes| Entry::unpack(word(bytes)))
        .collect()
}

#[cfg(test)]
mod tests {
    use super::*;

    #[test]
    fn each_field_has_its_place() {
        assert_eq!(pack(15, 255, 0, 0, 0), 0xfff0_0000);
        assert_eq!(pack(0, 0, 63, 0, 0), 0x000f_c000);
        assert_eq!(pack(0, 0, 0, 63, 255), 0x0000_3fff);
    }

    #[test]
    fn a_part_that_does_not_fit_is_the_last_number() {
        for part in [63, 64, 256, usize::MAX] {
            assert_eq!(not(part), 0x300f_c000);
            assert_eq!(or(0, part), 0x5000_3f00);
        }
    }
}
