//! Draws, climbs, and the slowest tables that were found.

use crate::worker::{self, Timed, Worker};
use crate::{change, describe, draw, fold};
use hurnavis_comparison::layout::{self, Entry, AT_LEAST, FACT};
use hurnavis_comparison::xorshift::Xorshift;
use std::time::{Duration, Instant};

/// So many are climbed from, and so many printed.
const CLIMBED: usize = 16;
const PRINTED: usize = 10;
/// A step counts if it is so much slower: less may be chance.
const SLOWER: f64 = 1.03;

/// Measures tables in another process.
pub struct Meter {
    worker: Worker,
    limit: Duration,
    /// The nanoseconds that it takes to look through one work word.
    pub word: f64,
    pub measures: usize,
    pub abandoned: usize,
}

/// A table whose last entry was decided.
#[derive(Clone)]
pub struct Found {
    table: Vec<Entry>,
    /// Nothing where the limit was passed.
    timed: Option<Timed>,
    /// Nanoseconds beyond those for the words.
    score: f64,
}

impl Meter {
    pub fn start(limit: Duration) -> Meter {
        let mut meter = Meter {
            worker: Worker::start(),
            limit,
            word: 0.0,
            measures: 0,
            abandoned: 0,
        };
        meter.word = meter.nanoseconds_a_word();
        meter
    }

    pub fn measured(&mut self, table: Vec<Entry>) -> Found {
        let last = table.len() - 1;
        let bytes = layout::pack_table(&table);
        let timed = self.worker.decide(&bytes, last, self.limit);
        self.measures += 1;
        self.abandoned += timed.is_none() as usize;
        let score = timed.map_or(f64::INFINITY, |t| {
            t.time.as_nanos() as f64 - self.word * words(&table) as f64
        });
        Found {
            table,
            timed,
            score,
        }
    }

    /// From tables whose decision is nothing beside the looking through their words.
    fn nanoseconds_a_word(&mut self) -> f64 {
        let count = |kind: u8, grade: u8| Entry {
            kind,
            name: 0,
            first: 0,
            second: 0,
            grade,
        };
        let mut table = vec![count(FACT, 0)];
        table.resize(layout::MOST_ENTRIES, count(AT_LEAST, 255));
        let bytes = layout::pack_table(&table);
        let times = (0..20).filter_map(|_| self.worker.decide(&bytes, 1, self.limit));
        let least = times.map(|t| t.time).min().unwrap_or_default();
        least.as_nanos() as f64 / words(&table) as f64
    }
}

impl Found {
    pub fn is_over(&self) -> bool {
        self.timed.is_none()
    }
}

/// Which tables are tried.
#[derive(Clone, Copy)]
pub struct Space {
    /// The greatest grade.
    pub grade: u8,
    pub folded: bool,
}

impl Space {
    fn draw(self, random: &mut Xorshift) -> Vec<Entry> {
        self.fold(draw::table(random, self.grade))
    }

    fn change(self, random: &mut Xorshift, table: &[Entry]) -> Vec<Entry> {
        self.fold(change::changed(random, table, self.grade))
    }

    fn fold(self, table: Vec<Entry>) -> Vec<Entry> {
        if self.folded {
            fold::folded(&table)
        } else {
            table
        }
    }
}

/// Document 01's W for the last entry.
fn words(table: &[Entry]) -> usize {
    let depth = layout::depths(table).last().copied().unwrap_or(0);
    layout::work_words(table, depth)
}

/// The slowest tables that are found in this time, the slowest first.
pub fn run(random: &mut Xorshift, space: Space, time: Duration, meter: &mut Meter) -> Vec<Found> {
    let started = Instant::now();
    let mut climbed: Vec<Found> = Vec::new();
    let mut over: Vec<Found> = Vec::new();
    while started.elapsed() < time && over.len() < 2 * PRINTED {
        let early = started.elapsed() < time / 4;
        if early || climbed.len() < PRINTED || random.percent(5) {
            keep(meter.measured(space.draw(random)), &mut climbed, &mut over);
            continue;
        }
        // The better of two, so that the slower ones are climbed more.
        let i = random.below(climbed.len()).min(random.below(climbed.len()));
        let next = meter.measured(space.change(random, &climbed[i].table));
        if next.is_over() {
            climbed.remove(i);
            over.push(next);
        } else if next.score > SLOWER * climbed[i].score {
            climbed[i] = next;
            sort(&mut climbed);
        }
    }
    over.append(&mut climbed);
    over.truncate(PRINTED);
    over
}

/// A drawn table is climbed from if it is among the slowest.
fn keep(drawn: Found, climbed: &mut Vec<Found>, over: &mut Vec<Found>) {
    if drawn.is_over() {
        over.push(drawn);
        return;
    }
    climbed.push(drawn);
    sort(climbed);
    climbed.truncate(CLIMBED);
}

fn sort(found: &mut [Found]) {
    found.sort_by(|one, other| other.score.total_cmp(&one.score));
}

pub fn print(found: &Found) {
    let answer = match found.timed {
        None => "no answer".into(),
        Some(t) => {
            let answer = if t.satisfiable {
                "possible"
            } else {
                "impossible"
            };
            format!(
                "{answer}, {:.2?}, {:.0} us beyond the words",
                t.time,
                found.score / 1e3
            )
        }
    };
    let table = worker::hex(&layout::pack_table(&found.table));
    println!("({}, \"{table}\"),", found.table.len() - 1);
    println!("    {answer}, {} words", words(&found.table));
    for line in describe::lines(&found.table) {
        println!("    {line}");
    }
}

#[cfg(test)]
mod tests {
    use super::*;

    /// What is drawn, and what comes of many changes, is accepted and has its last entry depend on all others.
    #[test]
    fn tables_stay_accepted() {
        for seed in 0..200 {
            let mut random = Xorshift::new(seed, 1);
            let space = Space {
                grade: random.pick(&[1, 3, 255]),
                folded: random.percent(50),
            };
            let mut table = space.draw(&mut random);
            for _ in 0..200 {
                let bytes = layout::pack_table(&table);
                assert_eq!(hurnavis::check_table(&bytes), Ok(()), "seed {seed}");
                assert_eq!(change::reachable(&table), table, "seed {seed}");
                assert!(table.iter().all(|e| e.grade <= space.grade));
                table = space.change(&mut random, &table);
            }
        }
    }
}
