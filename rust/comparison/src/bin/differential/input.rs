//! One random input: a table, a structure, the entries asked for and how many words are lent to each call.

use hurnavis::Writer;
use hurnavis_comparison::independent::refusals;
use hurnavis_comparison::layout::{self, Entry, Record};
use hurnavis_comparison::xorshift::Xorshift;

pub struct Input {
    pub family: &'static str,
    pub table: Vec<u8>,
    pub structure: Vec<u8>,
    pub model: usize,
    pub answer: usize,
    /// The words lent to the board, to the decision and to the mark.
    pub board_words: usize,
    pub decide_words: usize,
    pub mark_words: usize,
}

/// An input over the table with enough words, and sometimes some more.
pub fn over(
    random: &mut Xorshift,
    family: &'static str,
    table: &Writer,
    asked: (usize, usize),
) -> Input {
    let bytes = table.bytes();
    let structure = structure(random, &bytes);
    let mut input = Input {
        family,
        table: bytes,
        structure,
        model: asked.0,
        answer: asked.1,
        board_words: 0,
        decide_words: 0,
        mark_words: 0,
    };
    lend(random, &mut input);
    input
}

/// Lends what the calls need, or a little more; for a table or an entry that is refused, any few.
pub fn lend(random: &mut Xorshift, input: &mut Input) {
    let more = |random: &mut Xorshift| random.pick(&[0, 0, 3, 1]);
    input.board_words = input.table.len() / 4 + more(random);
    input.decide_words = needed(&input.table, &[input.model]) + more(random);
    input.mark_words = needed(&input.table, &[input.model, input.answer]) + more(random);
}

/// Document 01's W, or a few words where there is none.
pub fn needed(table: &[u8], asked: &[usize]) -> usize {
    let Ok(entries) = refusals::table(table) else {
        return 50;
    };
    let depths = layout::depths(&entries);
    let asked = asked.iter().map(|e| depths.get(*e).copied().unwrap_or(0));
    layout::work_words(&entries, asked.max().unwrap_or(0))
}

/// A structure over the signs of the table, if it can be read; some records repeat, and some links have copies.
fn structure(random: &mut Xorshift, table: &[u8]) -> Vec<u8> {
    let entries = refusals::table(table).unwrap_or_default();
    let names = |pick: fn(&Entry) -> bool| -> Vec<u8> {
        let named = entries.iter().filter(|e| pick(e)).map(|e| e.name);
        named.chain([7]).collect()
    };
    let facts = names(|e| e.kind == layout::FACT);
    let relations = names(|e| e.counts());
    let worlds = random.pick(&[1, 2, 3, 3, 4, 5, 8, 16, 33, 63, 64]);
    let records = match random.below(40) {
        0 => layout::MOST_RECORDS,
        1 => 300,
        _ => random.between(1, 6 * worlds.min(8)),
    };
    let mut all = vec![Record::Header(worlds as u8 - 1)];
    while all.len() < records {
        let world = random.below(worlds) as u8;
        all.push(match random.below(10) {
            0..=2 => Record::Fact {
                world,
                name: random.pick(&facts),
            },
            3..=8 => Record::Link {
                from: world,
                relation: random.pick(&relations),
                to: random.below(worlds) as u8,
                copies: random.pick(&[1, 1, 1, 2, 3, 4]),
            },
            _ if all.len() > 1 => all[random.between(1, all.len() - 1)],
            _ => continue,
        });
    }
    layout::pack_structure(&all)
}
