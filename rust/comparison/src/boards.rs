//! Boards that more than one program measures.

use crate::layout::{self, Record};
use crate::xorshift::Xorshift;
use hurnavis::Writer;

/// A table and a structure, both accepted.
#[derive(Clone, Debug)]
pub struct Board {
    pub table: Vec<u8>,
    pub structure: Vec<u8>,
}

impl Board {
    /// Words to lend, with something in them that the call has to write over.
    pub fn words(&self) -> Vec<u64> {
        vec![0x5555_5555_5555_5555; self.table.len() / 4]
    }

    /// The same with so many copies on every link, 1 to 4.
    pub fn with_copies(&self, copies: u8) -> Board {
        let mut board = self.clone();
        let records = board.structure.chunks_exact_mut(3);
        for link in records.filter(|record| record[0] >> 6 == 2) {
            link[2] = link[2] & !3 | (copies - 1);
        }
        board
    }
}

/// 63 counting entries, over a fact or over each other, and 64 worlds with so many records. The
/// entries take the relations in turn.
pub fn counting(records: usize, relations: usize) -> Board {
    sized(63, 64, records, relations)
}

/// The same with any number of counting entries and worlds.
pub fn sized(entries: usize, worlds: usize, records: usize, relations: usize) -> Board {
    Board {
        table: counting_table(entries, relations),
        structure: drawn(worlds, records, relations),
    }
}

fn counting_table(entries: usize, relations: usize) -> Vec<u8> {
    let mut t = Writer::new();
    let fact = t.fact(0);
    for i in 1..=entries {
        let part = if i % 3 == 0 { i - 1 } else { fact };
        let (grade, relation) = ((i % 7) as u8, (i % relations) as u8);
        if i % 2 == 0 {
            t.at_least(grade, relation, part);
        } else {
            t.at_most(grade, relation, part);
        }
    }
    t.bytes()
}

/// Random links and facts, with a share of repetitions.
fn drawn(worlds: usize, records: usize, relations: usize) -> Vec<u8> {
    let mut random = Xorshift::new(1, records as u64);
    let mut drawn = vec![Record::Header(worlds as u8 - 1)];
    while drawn.len() < records {
        let world = random.below(worlds) as u8;
        drawn.push(match random.below(10) {
            0 => Record::Fact { world, name: 0 },
            _ => Record::Link {
                from: world,
                relation: random.below(relations) as u8,
                to: random.below(worlds) as u8,
                copies: 1,
            },
        });
    }
    layout::pack_structure(&drawn)
}

#[cfg(test)]
mod tests {
    use super::*;
    use std::collections::BTreeSet;

    #[test]
    fn the_counting_entries_share_so_many_relations() {
        for relations in [1, 5, 63] {
            let board = counting(1024, relations);
            let entries = layout::unpack_table(&board.table);
            let counting: Vec<_> = entries.iter().filter(|e| e.counts()).collect();
            let names: BTreeSet<u8> = counting.iter().map(|e| e.name).collect();
            assert_eq!((counting.len(), names.len()), (63, relations));
            assert_eq!(board.structure.len(), 3 * 1024);
        }
    }

    #[test]
    fn copies_change_the_links_and_nothing_else() {
        let board = counting(256, 5);
        for copies in [1, 2, 4] {
            let copied = board.with_copies(copies);
            let expected = layout::unpack_structure(&board.structure)
                .into_iter()
                .map(|record| match record {
                    Record::Link {
                        from, relation, to, ..
                    } => Record::Link {
                        from,
                        relation,
                        to,
                        copies,
                    },
                    other => other,
                });
            let expected: Vec<Record> = expected.collect();
            assert_eq!(layout::unpack_structure(&copied.structure), expected);
            assert_eq!(copied.table, board.table);
        }
    }
}
