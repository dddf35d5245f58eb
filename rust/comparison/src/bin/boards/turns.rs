//! Times of sides on boards, in turns: what disturbs the machine then disturbs all alike.

use crate::side::Side;
use hurnavis_comparison::boards::Board;
use hurnavis_comparison::show;
use std::hint::black_box;
use std::time::{Duration, Instant};

/// A batch of calls takes at least so long, so that reading the clock does not count.
const BATCH: Duration = Duration::from_micros(20);
/// For each run about so long in all.
const SPENT: Duration = Duration::from_millis(150);
/// The batches that are tried before so many calls are thought to be enough.
const TRIES: usize = 5;

/// The places on the stack that are tried. Where the stack begins is chance, and in some places a
/// call that works in words of its own takes nearly twice as long.
const PLACES: usize = 4;

/// The quickest batch of calls, as the one least disturbed.
#[derive(Clone, Copy)]
pub struct Timed {
    calls: u32,
    time: Duration,
}

impl Timed {
    /// The time of one call.
    pub fn shown(&self) -> String {
        show::nanos(self.time.as_nanos() as f64 / f64::from(self.calls))
    }

    /// How many times as long as the other's a call is.
    pub fn ratio(&self, other: &Timed) -> String {
        show::ratio(self.time * other.calls, other.time * self.calls)
    }
}

/// A side, the board that it is called on, and the words that it fills.
pub struct Run<'a> {
    side: &'a mut Side,
    board: &'a Board,
    words: Vec<u64>,
}

impl Run<'_> {
    pub fn new<'a>(side: &'a mut Side, board: &'a Board) -> Run<'a> {
        Run {
            words: board.words(),
            side,
            board,
        }
    }

    /// As many calls as make even a quick batch long enough.
    fn enough(&mut self) -> u32 {
        let mut calls = 1;
        while (0..TRIES).any(|_| self.batch(calls) < BATCH) {
            calls *= 2;
        }
        calls
    }

    /// So many calls, after one that brings the side's memory back into reach.
    fn batch(&mut self, calls: u32) -> Duration {
        let (table, structure) = (&self.board.table[..], &self.board.structure[..]);
        let (fill, words) = (&mut self.side.fill, &mut self.words[..]);
        fill(table, structure, words);
        let started = Instant::now();
        for _ in 0..calls {
            fill(black_box(table), black_box(structure), black_box(words));
        }
        started.elapsed()
    }
}

/// The times of the runs.
pub fn measure<const N: usize>(mut runs: [Run; N]) -> [Timed; N] {
    let mut best = runs.each_mut().map(|run| Timed {
        calls: run.enough(),
        time: Duration::MAX,
    });
    let started = Instant::now();
    let mut rounds = 0;
    while started.elapsed() < SPENT * N as u32 {
        further_down(rounds % PLACES, &mut || {
            for (run, best) in runs.iter_mut().zip(&mut best) {
                best.time = best.time.min(run.batch(best.calls));
            }
        });
        rounds += 1;
    }
    best
}

/// Does the work about so many KiB further down the stack.
fn further_down(places: usize, work: &mut dyn FnMut()) {
    if places == 0 {
        return work();
    }
    let passed_over = [0u8; 1024];
    black_box(&passed_over);
    further_down(places - 1, work);
    black_box(&passed_over);
}
