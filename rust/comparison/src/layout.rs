//! The packed formats of document 01: entries of a description table, records of a structure, and the words needed.

/// One entry of a description table. Unused fields are 0.
#[derive(Clone, Copy, Debug, PartialEq, Eq, Hash)]
pub struct Entry {
    pub kind: u8,
    /// A fact's name, or the relation of a counting entry.
    pub name: u8,
    pub first: u8,
    pub second: u8,
    pub grade: u8,
}

pub const TRUE: u8 = 0;
pub const FALSE: u8 = 1;
pub const FACT: u8 = 2;
pub const NOT: u8 = 3;
pub const AND: u8 = 4;
pub const OR: u8 = 5;
pub const AT_LEAST: u8 = 6;
pub const AT_MOST: u8 = 7;

/// The most entries that a table holds.
pub const MOST_ENTRIES: usize = 64;
/// The most records that a structure holds.
pub const MOST_RECORDS: usize = 1024;
/// The most copies that a link has (document 02's P7).
pub const MOST_COPIES: u8 = 4;

impl Entry {
    /// The entry of 4 bytes: kind 4 bits, name 8, first 6, second 6, grade 8, most significant bit first.
    pub fn unpack(bytes: [u8; 4]) -> Entry {
        let word = u32::from_be_bytes(bytes);
        Entry {
            kind: (word >> 28) as u8,
            name: (word >> 20) as u8,
            first: (word >> 14 & 63) as u8,
            second: (word >> 8 & 63) as u8,
            grade: word as u8,
        }
    }

    /// The 4 bytes of the entry. Fields wider than the format lose their upper bits.
    pub fn pack(self) -> [u8; 4] {
        let word = (self.kind as u32 & 15) << 28
            | (self.name as u32) << 20
            | (self.first as u32 & 63) << 14
            | (self.second as u32 & 63) << 8
            | self.grade as u32;
        word.to_be_bytes()
    }

    /// At least or at most.
    pub fn counts(self) -> bool {
        self.kind == AT_LEAST || self.kind == AT_MOST
    }

    /// And, or.
    pub fn joins(self) -> bool {
        self.kind == AND || self.kind == OR
    }
}

/// The entries of a table whose length is a multiple of 4.
pub fn unpack_table(table: &[u8]) -> Vec<Entry> {
    table
        .chunks_exact(4)
        .map(|b| Entry::unpack([b[0], b[1], b[2], b[3]]))
        .collect()
}

pub fn pack_table(entries: &[Entry]) -> Vec<u8> {
    entries.iter().flat_map(|e| e.pack()).collect()
}

/// The depth of each entry. References must be smaller than the entry's own number.
pub fn depths(entries: &[Entry]) -> Vec<usize> {
    let mut depths: Vec<usize> = Vec::with_capacity(entries.len());
    for e in entries {
        depths.push(match e.kind {
            NOT => depths[e.first as usize],
            AND | OR => depths[e.first as usize].max(depths[e.second as usize]),
            AT_LEAST | AT_MOST => depths[e.first as usize] + 1,
            _ => 0,
        });
    }
    depths
}

/// Document 01's W: the words that a decision at this depth needs.
pub fn work_words(entries: &[Entry], depth: usize) -> usize {
    let grades: usize = entries
        .iter()
        .filter(|e| e.counts())
        .map(|e| e.grade as usize + 1)
        .sum();
    8 * (depth + 1) * (2 * entries.len() + grades + 4)
}

/// One record of a structure.
#[derive(Clone, Copy, Debug, PartialEq, Eq, Hash)]
pub enum Record {
    /// The number of worlds less 1.
    Header(u8),
    Fact {
        world: u8,
        name: u8,
    },
    Link {
        from: u8,
        relation: u8,
        to: u8,
        /// 1 to 4.
        copies: u8,
    },
}

impl Record {
    /// The 3 bytes of the record, most significant bit first, opening with a 2-bit kind.
    pub fn pack(self) -> [u8; 3] {
        let word = match self {
            Record::Header(last) => (last as u32 & 63) << 16,
            Record::Fact { world, name } => {
                1 << 22 | (world as u32 & 63) << 16 | (name as u32) << 8
            }
            Record::Link {
                from,
                relation,
                to,
                copies,
            } => {
                let less_1 = copies.wrapping_sub(1) as u32 & 3;
                2 << 22
                    | (from as u32 & 63) << 16
                    | (relation as u32) << 8
                    | (to as u32 & 63) << 2
                    | less_1
            }
        };
        let [_, a, b, c] = word.to_be_bytes();
        [a, b, c]
    }

    /// The record of 3 bytes, if there is such a kind. Zero bits are not looked at.
    pub fn unpack([a, b, c]: [u8; 3]) -> Option<Record> {
        let world = a & 63;
        match a >> 6 {
            0 => Some(Record::Header(world)),
            1 => Some(Record::Fact { world, name: b }),
            2 => Some(Record::Link {
                from: world,
                relation: b,
                to: c >> 2,
                copies: (c & 3) + 1,
            }),
            _ => None,
        }
    }
}

pub fn pack_structure(records: &[Record]) -> Vec<u8> {
    records.iter().flat_map(|r| r.pack()).collect()
}

/// The records of a structure without faults.
pub fn unpack_structure(structure: &[u8]) -> Vec<Record> {
    structure
        .chunks_exact(3)
        .filter_map(|b| Record::unpack([b[0], b[1], b[2]]))
        .collect()
}

#[cfg(test)]
mod tests {
    use super::*;

    #[test]
    fn entries_pack_as_document_01_shows() {
        let at_least_2 = Entry {
            kind: AT_LEAST,
            name: 7,
            first: 0,
            second: 0,
            grade: 2,
        };
        assert_eq!(at_least_2.pack(), [0x60, 0x70, 0x00, 0x02]);
        assert_eq!(Entry::unpack([0x60, 0x70, 0x00, 0x02]), at_least_2);
    }

    #[test]
    fn records_pack_as_document_01_shows() {
        assert_eq!(Record::Header(2).pack(), [0x02, 0, 0]);
        assert_eq!(Record::Fact { world: 1, name: 1 }.pack(), [0x41, 1, 0]);
        let link = |copies| Record::Link {
            from: 0,
            relation: 7,
            to: 1,
            copies,
        };
        assert_eq!(link(1).pack(), [0x80, 7, 4]);
        assert_eq!(link(4).pack(), [0x80, 7, 7]);
    }

    #[test]
    fn records_are_read_as_they_are_written() {
        let links = (1..=MOST_COPIES).map(|copies| Record::Link {
            from: 63,
            relation: 255,
            to: 62,
            copies,
        });
        let (world, name) = (61, 254);
        let facts = [Record::Header(60), Record::Fact { world, name }];
        let records: Vec<Record> = facts.into_iter().chain(links).collect();
        assert_eq!(unpack_structure(&pack_structure(&records)), records);
        assert_eq!(Record::unpack([0xc0, 0, 0]), None);
    }

    #[test]
    fn one_fact_needs_48_words() {
        assert_eq!(work_words(&unpack_table(&[0x20, 0x10, 0, 0]), 0), 48);
    }
}
