//! The structure in which every world stands four times: world w at 4w to 4w + 3, with its facts at each. Each standing of the
//! origin of a link of c copies leads to the first c standings of its target, and no link there has copies.
//!
//! It is written record by record. That of a repeated link the greatest number counts comes by itself: the links of a relation
//! are a set, and the first standings are among the first of a greater number.

use hurnavis_comparison::layout::{self, Record, MOST_RECORDS};

/// How often a world stands, and how many worlds can.
const STANDINGS: u8 = 4;
const MOST_WORLDS: u8 = 64 / STANDINGS;

/// The structure of an accepted one, if it fits into the format.
pub fn fourfold(structure: &[u8]) -> Option<Vec<u8>> {
    let mut records = Vec::new();
    for record in layout::unpack_structure(structure) {
        match record {
            Record::Header(last) => {
                if last >= MOST_WORLDS {
                    return None;
                }
                records.push(Record::Header(STANDINGS * (last + 1) - 1));
            }
            Record::Fact { world, name } => {
                records.extend(standings(world).map(|world| Record::Fact { world, name }));
            }
            Record::Link {
                from,
                relation,
                to,
                copies,
            } => {
                for from in standings(from) {
                    let led_to = standings(to).take(copies.into());
                    records.extend(led_to.map(|to| Record::Link {
                        from,
                        relation,
                        to,
                        copies: 1,
                    }));
                }
            }
        }
    }
    (records.len() <= MOST_RECORDS).then(|| layout::pack_structure(&records))
}

fn standings(world: u8) -> impl Iterator<Item = u8> {
    (0..STANDINGS).map(move |standing| STANDINGS * world + standing)
}

/// The word of these worlds with each bit four times.
pub fn spread(word: u64) -> u64 {
    (0..MOST_WORLDS)
        .filter(|world| word >> world & 1 == 1)
        .fold(0, |all, world| all | 0xf << (4 * world))
}

#[cfg(test)]
mod tests {
    use super::*;

    /// Two worlds, fact 1 at world 1, a link of relation 7 from world 0 to world 1 with 3 copies.
    #[test]
    fn every_world_stands_four_times() {
        let structure = [1, 0, 0, 0x41, 1, 0, 0x80, 7, 6];
        let mut expected = vec![7, 0, 0];
        for fact in [0x44, 0x45, 0x46, 0x47] {
            expected.extend([fact, 1, 0]);
        }
        for from in [0x80, 0x81, 0x82, 0x83] {
            // To worlds 4, 5 and 6, which are the first three of world 1's.
            for to in [4 << 2, 5 << 2, 6 << 2] {
                expected.extend([from, 7, to]);
            }
        }
        assert_eq!(fourfold(&structure), Some(expected));
    }

    #[test]
    fn what_does_not_fit_is_left_out() {
        assert!(fourfold(&[15, 0, 0]).is_some());
        assert_eq!(fourfold(&[16, 0, 0]), None);
        assert_eq!(fourfold(&[63, 0, 0]), None);
        let facts = |count: usize| [&[0, 0, 0][..], &[0x40, 1, 0].repeat(count)].concat();
        assert!(fourfold(&facts(255)).is_some());
        assert_eq!(fourfold(&facts(256)), None);
    }

    #[test]
    fn a_bit_stands_four_times() {
        assert_eq!(spread(0), 0);
        assert_eq!(spread(0b101), 0xf0f);
        assert_eq!(spread(0x8000), 0xf000_0000_0000_0000);
        assert_eq!(spread(0xffff), u64::MAX);
    }
}
