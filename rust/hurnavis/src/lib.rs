//! Hurnavis marks descriptions: whether a description is possible at all, and how an answer stands to a model.
//!
//! A description is made of facts, not, and, or, and "at least n" or "at most n" links of a relation to worlds where
//! something holds. The calls answer for structures of every size, and they are proved to answer right.
//!
//! ```
//! use hurnavis::{decide, mark, work_words, Mark, Writer};
//!
//! // What the numbers stand for is yours to say.
//! const DOCTOR: u8 = 1; // a fact
//! const CHILD: u8 = 7; // a relation
//!
//! // The model: at least 2 children who are doctors. The answer: at least 3.
//! let mut table = Writer::new();
//! let doctor = table.fact(DOCTOR);
//! let model = table.at_least(2, CHILD, doctor);
//! let answer = table.at_least(3, CHILD, doctor);
//! let table = table.bytes();
//!
//! // The calls work in words that you lend, and allocate nothing themselves.
//! let mut words = vec![0; work_words(&table, model, answer)?];
//! assert!(decide(&table, answer, &mut words)?);
//! assert_eq!(mark(&table, model, answer, &mut words)?, Mark::Narrower);
//! # Ok::<(), hurnavis::Fault>(())
//! ```
//!
//! - [`Writer`] writes tables of descriptions, [`StructureWriter`] structures.
//! - [`read_text`] reads a description that somebody typed, such as `>=2 r7 (n1 & !n2)`; [`Writer::text`] does so into a table
//!   that is being written, and [`print_text`] goes the other way.
//! - [`decide`] and [`mark`] answer; [`work_words`] says how many words to lend to them.
//! - [`board`] says at which worlds of one structure the descriptions hold.
//! - A [`Draft`] grows by one [`entry`] after the other; it can be saved under names, and one can come back to what was saved.
//! - A call that is refused returns a [`Fault`], which says in words what is wrong. It has then changed nothing.
//!
//! No call keeps a pointer or any state: threads may call at the same time, each with words of its own.
//!
//! The package links the archive `libhurnavis.a`. Where it is missing, the build says how to make it.

#![deny(unsafe_code)]
#![warn(missing_docs)]

mod draft;
pub mod entry;
mod fault;
mod mark;
#[allow(unsafe_code)]
pub mod raw;
mod structure;
mod text;
mod writer;

pub use draft::Draft;
pub use fault::Fault;
pub use mark::Mark;
pub use structure::StructureWriter;
pub use text::print_text;
pub use writer::Writer;

/// Checks a table. The other calls check it too; this one is for who wants to know before.
///
/// ```
/// use hurnavis::{check_table, Fault};
///
/// assert_eq!(check_table(&[0x20, 0x10, 0, 0]), Ok(()));
/// assert_eq!(check_table(&[0x20, 0x10, 0]), Err(Fault::TableLength));
/// ```
pub fn check_table(table: &[u8]) -> Result<(), Fault> {
    accepted(raw::check_table(table))
}

/// The words to lend for a mark of the two entries, which are enough for a decision on either as well. For a decision alone,
/// give its entry twice. It refuses what those calls refuse before they look at the words.
///
/// The number is 8 x (depth + 1) x (2 x entries + G + 4), where the depth is that of the deeper entry, and G the sum of
/// (grade + 1) over all "at least" and "at most" of the table: at most 8,325,120.
///
/// ```
/// use hurnavis::{work_words, Fault, Writer};
///
/// let mut table = Writer::new();
/// let p = table.fact(1);
/// assert_eq!(work_words(&table.bytes(), p, p), Ok(48));
/// assert_eq!(work_words(&table.bytes(), p, 1), Err(Fault::EntryNumber));
/// ```
pub fn work_words(table: &[u8], model: usize, answer: usize) -> Result<usize, Fault> {
    let mut needed = 0;
    accepted(raw::work_words(table, model, answer, &mut needed))?;
    // It fits: it is at most 8,325,120.
    Ok(needed as usize)
}

/// Writes for each entry the worlds of the structure where it holds: bit w of word e is entry e at world w. One word is lent
/// for each entry; words behind them keep their values. A link counts as often as it has copies, 1 to 4
/// ([`StructureWriter::link_copies`]).
///
/// ```
/// use hurnavis::{board, StructureWriter, Writer};
///
/// // Two worlds, fact 1 at world 1, a link of relation 7 from world 0 to world 1.
/// let mut structure = StructureWriter::new(2);
/// structure.fact(1, 1);
/// structure.link(0, 7, 1);
///
/// let mut table = Writer::new();
/// let p = table.fact(1);
/// table.at_least(1, 7, p);
///
/// let mut words = vec![0; table.count()];
/// assert_eq!(board(&table.bytes(), &structure.bytes(), &mut words), Ok(()));
/// assert_eq!(words, [0b10, 0b01]);
/// ```
pub fn board(table: &[u8], structure: &[u8], words: &mut [u64]) -> Result<(), Fault> {
    accepted(raw::board(table, structure, words))
}

/// Whether the entry holds at some world of some finite structure.
///
/// The words are work space, [`work_words`] of them or more; what stands in them has no influence. After an answer that many
/// are 0, and those behind them as before.
///
/// ```
/// use hurnavis::{decide, work_words, Writer};
///
/// // At least 2 links to p, and at most 1.
/// let mut table = Writer::new();
/// let p = table.fact(1);
/// let two = table.at_least(2, 7, p);
/// let one = table.at_most(1, 7, p);
/// let both = table.and(two, one);
/// let table = table.bytes();
///
/// let mut words = vec![0; work_words(&table, both, both)?];
/// assert_eq!(decide(&table, two, &mut words), Ok(true));
/// assert_eq!(decide(&table, both, &mut words), Ok(false));
/// # Ok::<(), hurnavis::Fault>(())
/// ```
pub fn decide(table: &[u8], entry: usize, words: &mut [u64]) -> Result<bool, Fault> {
    let mut possible = 0;
    accepted(raw::decide(table, entry, words, &mut possible))?;
    Ok(possible == 1)
}

/// How the answer's entry stands to the model's, or that the answer is impossible. The words are as for [`decide`].
///
/// ```
/// use hurnavis::{mark, work_words, Fault, Mark, Writer};
///
/// let mut table = Writer::new();
/// let p = table.fact(1);
/// let q = table.fact(2);
/// let both = table.and(p, q);
/// let never = table.falsity();
/// let table = table.bytes();
///
/// let mut words = vec![0; work_words(&table, p, both)?];
/// assert_eq!(mark(&table, p, both, &mut words), Ok(Mark::Narrower));
/// assert_eq!(mark(&table, both, p, &mut words), Ok(Mark::Wider));
/// assert_eq!(mark(&table, p, q, &mut words), Ok(Mark::Crossing));
/// assert_eq!(mark(&table, p, p, &mut words), Ok(Mark::Equal));
/// assert_eq!(mark(&table, p, never, &mut words), Ok(Mark::Impossible));
/// assert_eq!(mark(&table, never, never, &mut words), Ok(Mark::Impossible));
/// assert_eq!(mark(&table, p, 4, &mut words), Err(Fault::EntryNumber));
/// # Ok::<(), hurnavis::Fault>(())
/// ```
pub fn mark(table: &[u8], model: usize, answer: usize, words: &mut [u64]) -> Result<Mark, Fault> {
    let mut number = 0;
    accepted(raw::mark(table, model, answer, words, &mut number))?;
    Ok(Mark::from_number(number)
        .unwrap_or_else(|| panic!("a mark {number}: the archive is of another version")))
}

/// Reads a typed description into the lent bytes as a table, and answers the number of its entries. The description is the
/// last of them. 4 bytes are written for each entry, and the bytes behind keep their values; 256 are always enough.
///
/// | sign | is |
/// |---|---|
/// | `T`, `F` | true; false |
/// | `n12` | fact 12 |
/// | `!` | not what follows |
/// | `>=2 r7`, `<=2 r7` | at least, at most 2 links of relation 7 to worlds where what follows holds |
/// | `&`, `\|` | and; or |
/// | `(`, `)` | brackets |
///
/// `!` and the counting signs bind closest, then `&`, then `|`; equal signs group leftwards. Around a sign there may be spaces,
/// or none, and no other bytes; `>=2` and `r7` are two signs, and within one there is no space. Numbers go to 255, and have no
/// leading zero.
///
/// ```
/// use hurnavis::{read_text, Fault, Writer};
///
/// // At least 2 links of relation 7 to worlds with fact 1 and without fact 2.
/// let mut table = [0; 256];
/// let count = read_text(">=2 r7 (n1 & !n2)", &mut table)?;
///
/// let mut same = Writer::new();
/// let (p, q) = (same.fact(1), same.fact(2));
/// let without = same.not(q);
/// let part = same.and(p, without);
/// same.at_least(2, 7, part);
/// assert_eq!(table[..4 * count], same.bytes());
///
/// assert_eq!(read_text("n1 &", &mut table), Err(Fault::TextGrammar));
/// assert_eq!(read_text("n256", &mut table), Err(Fault::TextLimit));
/// assert_eq!(read_text("!n1", &mut table[..7]), Err(Fault::Space));
/// # Ok::<(), hurnavis::Fault>(())
/// ```
pub fn read_text(text: impl AsRef<[u8]>, table: &mut [u8]) -> Result<usize, Fault> {
    let mut entries = 0;
    accepted(raw::read_text(text.as_ref(), table, &mut entries))?;
    Ok(entries.into())
}

/// A call's result as Rust has it. Only an archive of another version returns a number that is no fault.
fn accepted(status: u32) -> Result<(), Fault> {
    if status == 0 {
        return Ok(());
    }
    Err(Fault::from_number(status)
        .unwrap_or_else(|| panic!("a refusal {status}: the archive is of another version")))
}
