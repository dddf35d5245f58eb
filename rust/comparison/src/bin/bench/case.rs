//! One measured call, on either side.

use hurnavis::{work_words, Draft, Fault};
use hurnavis_comparison::independent::draft::{plain, Step};
use hurnavis_comparison::independent::realisable::Limits;
use hurnavis_comparison::independent::{self, refusals, text};
use hurnavis_comparison::layout::MOST_ENTRIES;
use std::hint::black_box;
use std::time::{Duration, Instant};

/// A table and what is asked about it; a text has no table yet, and a draft has its own.
pub struct Case {
    pub table: Vec<u8>,
    pub question: Question,
}

pub enum Question {
    /// The board of this structure.
    Board(Vec<u8>),
    /// Whether the entry is satisfiable.
    Decide(usize),
    /// The mark of the model's entry and the answer's.
    Mark(usize, usize),
    /// The table of this text.
    Read(Vec<u8>),
    /// The step on this draft.
    Step(Box<Draft>, Step),
}

/// An answer in words and the time that one call took.
pub struct Measured {
    pub answer: String,
    pub time: Duration,
}

/// Calls are repeated for about this long; the quickest one counts, as the one least disturbed.
const REPEAT: Duration = Duration::from_millis(40);
/// At least so many times, unless that takes too long.
const FEW: u32 = 5;
const SLOW: Duration = Duration::from_millis(500);
/// A step is so quick that so many are measured together.
const STEPS: u32 = 100;

impl Case {
    /// The library's answer and time.
    pub fn hurnavis(&self) -> Measured {
        let table = &self.table;
        match &self.question {
            Question::Board(structure) => {
                let mut words = vec![0; table.len() / 4];
                repeated(|| {
                    accepted(hurnavis::board(table, structure, &mut words));
                    board(&words)
                })
            }
            Question::Decide(entry) => {
                let mut words = lent(table, *entry, *entry);
                repeated(|| decided(accepted(hurnavis::decide(table, *entry, &mut words))))
            }
            Question::Mark(model, answer) => {
                let mut words = lent(table, *model, *answer);
                repeated(|| {
                    accepted(hurnavis::mark(table, *model, *answer, &mut words)).to_string()
                })
            }
            Question::Read(text) => {
                let mut lent = [0; 4 * MOST_ENTRIES];
                repeated(|| read(hurnavis::read_text(text, &mut lent)))
            }
            Question::Step(draft, step) => steps(draft.as_ref(), |draft| {
                taken(draft, *step)?;
                Ok(draft.count())
            }),
        }
    }

    /// The independent side's answer and time, if it does not give up.
    pub fn independent(&self) -> Option<Measured> {
        let entries = || accepted(refusals::table(&self.table));
        let limits = Limits::LARGE;
        match &self.question {
            Question::Board(structure) => {
                let words = entries().len();
                Some(repeated(|| {
                    board(&accepted(independent::board(&self.table, structure, words)))
                }))
            }
            Question::Decide(entry) => {
                let entries = entries();
                independent::satisfiable(&entries, *entry, limits)?;
                Some(repeated(|| {
                    decided(independent::satisfiable(&entries, *entry, limits) == Some(true))
                }))
            }
            Question::Mark(model, answer) => {
                let entries = entries();
                independent::compared(&entries, *model, *answer, limits)?;
                Some(repeated(|| {
                    let mark = independent::compared(&entries, *model, *answer, limits);
                    mark.map_or("unknown".into(), |mark| mark.to_string())
                }))
            }
            Question::Read(text) => Some(repeated(|| {
                let entries = text::read(text, 4 * MOST_ENTRIES);
                read(entries.map(|entries| entries.len()))
            })),
            Question::Step(draft, step) => Some(steps(draft.bytes(), |bytes| {
                plain::step(bytes, *step)?;
                Ok(bytes[4 * MOST_ENTRIES].into())
            })),
        }
    }
}

fn lent(table: &[u8], model: usize, answer: usize) -> Vec<u64> {
    vec![0; accepted(work_words(table, model, answer))]
}

/// The families have no faults.
fn accepted<T>(result: Result<T, Fault>) -> T {
    result.unwrap_or_else(|fault| panic!("a case of a family is refused: {fault}"))
}

/// A board's answer is short: the sum of its words tells different boards apart well enough.
fn board(words: &[u64]) -> String {
    let sum = words.iter().fold(0u64, |sum, w| sum.rotate_left(1) ^ w);
    format!("board {:04x}", sum & 0xffff)
}

fn decided(satisfiable: bool) -> String {
    let answer = if satisfiable {
        "possible"
    } else {
        "impossible"
    };
    answer.into()
}

/// The number of entries, or of the refusal.
pub fn read(result: Result<usize, Fault>) -> String {
    match result {
        Ok(entries) => format!("entries {entries}"),
        Err(fault) => format!("refused {}", fault.number()),
    }
}

/// The library's call for the step.
fn taken(draft: &mut Draft, step: Step) -> Result<(), Fault> {
    match step {
        Step::New => *draft = Draft::new(),
        Step::Add(entry) => draft.add(entry)?,
        Step::Save(name) => draft.save(name)?,
        Step::Back(name) => draft.back(name)?,
    }
    Ok(())
}

/// The number of entries after a step, and its time, which includes that of copying the draft.
fn steps<T: Clone>(start: &T, step: impl Fn(&mut T) -> Result<usize, Fault>) -> Measured {
    let many = repeated(|| {
        let mut entries = Ok(0);
        for _ in 0..STEPS {
            let mut draft = start.clone();
            entries = step(black_box(&mut draft));
            black_box(&draft);
        }
        read(entries)
    });
    Measured {
        time: many.time / STEPS,
        ..many
    }
}

fn repeated(mut call: impl FnMut() -> String) -> Measured {
    let started = Instant::now();
    let answer = call();
    let mut time = started.elapsed();
    let mut calls = 1;
    while started.elapsed() < REPEAT || calls < FEW && started.elapsed() + time < SLOW {
        let again = Instant::now();
        let repeated = call();
        time = time.min(again.elapsed());
        calls += 1;
        assert_eq!(repeated, answer);
    }
    Measured { answer, time }
}
