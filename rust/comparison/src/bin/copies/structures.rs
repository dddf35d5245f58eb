//! Random structures, record by record.

use hurnavis_comparison::layout::Record;
use hurnavis_comparison::xorshift::Xorshift;

/// What the records of one input are made of.
#[derive(Clone, Debug)]
pub struct Style {
    pub worlds: usize,
    pub facts: Vec<u8>,
    pub relations: Vec<u8>,
    /// The numbers of copies, each as likely as it stands here.
    pub copies: &'static [u8],
}

/// Any number of copies, or few different ones.
const COPIES: &[&[u8]] = &[
    &[1, 2, 3, 4],
    &[1, 2, 3, 4],
    &[1, 1, 1, 2],
    &[1, 4],
    &[3, 4, 4],
    &[2],
    &[4],
];

impl Style {
    /// So many worlds; few facts and relations, which often share names.
    pub fn draw(random: &mut Xorshift, worlds: usize) -> Style {
        let relations = random.pick(&[1, 1, 2, 3, 5]);
        Style {
            worlds,
            facts: names(random, 2),
            relations: names(random, relations),
            copies: random.pick(COPIES),
        }
    }

    pub fn world(&self, random: &mut Xorshift) -> u8 {
        random.below(self.worlds) as u8
    }

    pub fn header(&self) -> Record {
        Record::Header(self.worlds as u8 - 1)
    }

    pub fn fact(&self, random: &mut Xorshift) -> Record {
        Record::Fact {
            world: self.world(random),
            name: random.pick(&self.facts),
        }
    }

    pub fn link(&self, random: &mut Xorshift) -> Record {
        let (from, to) = (self.world(random), self.world(random));
        self.link_between(random, from, to)
    }

    /// A link from a world to itself.
    pub fn loop_at_some(&self, random: &mut Xorshift) -> Record {
        let world = self.world(random);
        self.link_between(random, world, world)
    }

    pub fn link_between(&self, random: &mut Xorshift, from: u8, to: u8) -> Record {
        Record::Link {
            from,
            relation: random.pick(&self.relations),
            to,
            copies: random.pick(self.copies),
        }
    }

    /// The record once more; a link with a number of copies of its own.
    pub fn again(&self, random: &mut Xorshift, record: Record) -> Record {
        match record {
            Record::Link {
                from, relation, to, ..
            } => Record::Link {
                from,
                relation,
                to,
                copies: random.pick(self.copies),
            },
            other => other,
        }
    }

    /// So many records, the header among them: facts, links, and some of these once more.
    pub fn records(&self, random: &mut Xorshift, count: usize) -> Vec<Record> {
        let mut records = vec![self.header()];
        while records.len() < count {
            let any = records[random.below(records.len())];
            records.push(match random.below(20) {
                0..=3 => self.fact(random),
                4..=6 if any != records[0] => self.again(random, any),
                7..=8 => self.loop_at_some(random),
                _ => self.link(random),
            });
        }
        records
    }
}

/// So many names, one behind the other, from 0, from the end or from anywhere.
pub fn names(random: &mut Xorshift, count: usize) -> Vec<u8> {
    let any = random.word() as u8;
    let start = random.pick(&[0, 0, 7, 255, any]);
    (0..count).map(|i| start.wrapping_add(i as u8)).collect()
}

/// Puts all records but the header into some other order.
pub fn shuffle(random: &mut Xorshift, records: &mut [Record]) {
    for at in 2..records.len() {
        records.swap(at, random.between(1, at));
    }
}
