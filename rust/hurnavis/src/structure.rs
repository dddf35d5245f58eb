//! Writes a structure record by record.

/// A record of kind 3, which does not exist: wherever it stands, the board refuses it.
const NO_RECORD: u32 = 3 << 22;

/// The most worlds of a structure that can be written down.
const MOST_WORLDS: usize = 64;

/// The most copies of a link.
const MOST_COPIES: usize = 4;

/// A structure under construction: worlds, the facts that hold at them, and links between them. [`board`](crate::board)
/// takes its bytes.
///
/// ```
/// use hurnavis::{board, StructureWriter, Writer};
///
/// // World 0 leads to worlds 1 and 2 by relation 7; fact 1 holds at these two.
/// let mut structure = StructureWriter::new(3);
/// structure.fact(1, 1);
/// structure.fact(2, 1);
/// structure.link(0, 7, 1);
/// structure.link(0, 7, 2);
///
/// let mut table = Writer::new();
/// let p = table.fact(1);
/// let two = table.at_least(2, 7, p);
///
/// let mut words = [0; 2];
/// board(&table.bytes(), &structure.bytes(), &mut words)?;
/// assert_eq!(words[p], 0b110);
/// assert_eq!(words[two], 0b001);
/// # Ok::<(), hurnavis::Fault>(())
/// ```
///
/// The writer itself refuses nothing, and loses nothing: a world that the structure does not have is refused by the board as
/// [`Fault::World`](crate::Fault::World), a number of worlds that is not 1 to 64, a world over 63, or a number of copies that is
/// not 1 to 4, as [`Fault::Record`](crate::Fault::Record), and over 1,023 facts and links as
/// [`Fault::StructureLength`](crate::Fault::StructureLength).
#[derive(Clone, Debug, PartialEq, Eq)]
pub struct StructureWriter {
    records: Vec<u32>,
}

impl StructureWriter {
    /// A structure of so many worlds, 1 to 64, without facts and links. The worlds are numbered from 0.
    #[must_use]
    pub fn new(worlds: usize) -> StructureWriter {
        let header = match worlds {
            1..=MOST_WORLDS => (worlds as u32 - 1) << 16,
            _ => NO_RECORD,
        };
        StructureWriter {
            records: vec![header],
        }
    }

    /// The fact of this name holds at the world. Said twice it adds nothing.
    pub fn fact(&mut self, world: usize, name: u8) {
        self.record(1, world, name, 0, 0);
    }

    /// A link of the relation leads from one world to another, or to itself. It has one copy; said twice it adds nothing.
    pub fn link(&mut self, from: usize, relation: u8, to: usize) {
        self.link_copies(from, relation, to, 1);
    }

    /// A link with 1 to 4 copies, which "at least" and "at most" count as so many links. Of a link that is said again the
    /// greatest number counts, whichever was said first.
    ///
    /// ```
    /// use hurnavis::{board, Fault, StructureWriter, Writer};
    ///
    /// // World 0 leads to world 1 by three copies.
    /// let mut structure = StructureWriter::new(2);
    /// structure.link_copies(0, 7, 1, 3);
    /// structure.link_copies(0, 7, 1, 2); // adds nothing
    ///
    /// let mut table = Writer::new();
    /// let anything = table.truth();
    /// let three = table.at_least(3, 7, anything);
    /// let four = table.at_least(4, 7, anything);
    ///
    /// let mut words = [0; 3];
    /// board(&table.bytes(), &structure.bytes(), &mut words)?;
    /// assert_eq!(words[three], 0b01);
    /// assert_eq!(words[four], 0b00);
    ///
    /// // No copies, and more than 4, are refused by the board.
    /// for copies in [0, 5] {
    ///     let mut other = structure.clone();
    ///     other.link_copies(0, 7, 1, copies);
    ///     assert_eq!(board(&table.bytes(), &other.bytes(), &mut words), Err(Fault::Record));
    /// }
    /// # Ok::<(), Fault>(())
    /// ```
    pub fn link_copies(&mut self, from: usize, relation: u8, to: usize, copies: usize) {
        // For 0 the number less 1 is one that does not fit.
        self.record(2, from, relation, to, copies.wrapping_sub(1));
    }

    /// The structure as the board takes it.
    #[must_use]
    pub fn bytes(&self) -> Vec<u8> {
        let bytes = |record: &u32| {
            let [_, a, b, c] = record.to_be_bytes();
            [a, b, c]
        };
        self.records.iter().flat_map(bytes).collect()
    }

    /// Kind 2 bits, world 6, name 8, to 6, copies less 1 in 2. The last 8 bits of a fact are 0. What does not fit makes the
    /// record one that is refused.
    fn record(&mut self, kind: u32, world: usize, name: u8, to: usize, less_1: usize) {
        let fits = world < MOST_WORLDS && to < MOST_WORLDS && less_1 < MOST_COPIES;
        let worlds = (world as u32) << 16 | (to as u32) << 2;
        self.records.push(match fits {
            true => kind << 22 | u32::from(name) << 8 | worlds | less_1 as u32,
            false => NO_RECORD,
        });
    }
}

#[cfg(test)]
mod tests {
    use super::*;
    use crate::{board, Fault};

    fn taken(structure: &StructureWriter) -> Result<(), Fault> {
        board(&[0, 0, 0, 0], &structure.bytes(), &mut [0])
    }

    #[test]
    fn what_does_not_fit_is_refused() {
        for (worlds, expected) in [
            (0, Err(Fault::Record)),
            (1, Ok(())),
            (64, Ok(())),
            (65, Err(Fault::Record)),
            (usize::MAX, Err(Fault::Record)),
        ] {
            assert_eq!(taken(&StructureWriter::new(worlds)), expected);
        }
        for (worlds, world, expected) in [
            (3, 2, Ok(())),
            (3, 3, Err(Fault::World)),
            (64, 63, Ok(())),
            (64, 64, Err(Fault::Record)),
            (64, 256, Err(Fault::Record)),
            (64, usize::MAX, Err(Fault::Record)),
        ] {
            let mut fact = StructureWriter::new(worlds);
            let (mut from, mut to) = (fact.clone(), fact.clone());
            fact.fact(world, 255);
            from.link(world, 255, 0);
            to.link(0, 255, world);
            for structure in [fact, from, to] {
                assert_eq!(
                    taken(&structure),
                    expected,
                    "{worlds} worlds, world {world}"
                );
            }
        }
    }

    #[test]
    fn a_link_has_1_to_4_copies() {
        for copies in [0, 1, 2, 3, 4, 5, 8, 256, 257, usize::MAX] {
            let mut structure = StructureWriter::new(2);
            structure.link_copies(1, 255, 0, copies);
            let expected = match copies {
                1..=4 => Ok(()),
                _ => Err(Fault::Record),
            };
            assert_eq!(taken(&structure), expected, "{copies} copies");
            // 8 as without copies, but 7 where the copies do not fit either.
            let mut structure = StructureWriter::new(2);
            structure.link_copies(2, 255, 0, copies);
            let expected = expected.and(Err(Fault::World));
            assert_eq!(taken(&structure), expected, "{copies} copies");
        }
    }

    #[test]
    fn a_link_is_one_of_one_copy() {
        let (mut one, mut other) = (StructureWriter::new(64), StructureWriter::new(64));
        one.link(62, 7, 63);
        other.link_copies(62, 7, 63, 1);
        assert_eq!(one, other);
        assert_eq!(one.bytes()[3..], [0xbe, 7, 0xfc]);
        other.link_copies(62, 7, 63, 4);
        assert_eq!(other.bytes()[6..], [0xbe, 7, 0xff]);
    }

    #[test]
    fn too_many_records_are_refused() {
        let mut structure = StructureWriter::new(1);
        (0..1023).for_each(|_| structure.fact(0, 0));
        assert_eq!(taken(&structure), Ok(()));
        structure.fact(0, 0);
        assert_eq!(taken(&structure), Err(Fault::StructureLength));
    }
}
