//! The deepest and widest tables that the format allows, and texts that are far deeper, on the real stack: run it under
//! `ulimit -s 8192`.
//!
//! The answers are known by hand. The main thread's stack is the one that `ulimit` sets, so the calls stay on it.

use hurnavis::{Fault, Mark, Writer};
use std::process::ExitCode;
use std::time::Instant;

/// More brackets than a stack has room for, if each takes a byte of it.
const MANY: usize = 1 << 23;

fn main() -> ExitCode {
    let mut good = true;
    for grade in [1, 255] {
        good &= decided("63 at least, over a fact", grade, true, chain(grade, false));
        good &= decided("63 at least, over false", grade, false, chain(grade, true));
        good &= decided("63 at most, over a fact", grade, true, limits(grade));
        good &= decided("31 not at most", grade, true, not_at_most(grade));
    }
    good &= decided("63 nots", 0, true, nested(|t, x| t.not(x)));
    good &= decided("63 ands", 0, true, nested(|t, x| t.and(x, x)));
    good &= decided("63 ors", 0, true, nested(|t, x| t.or(x, x)));
    for (ors, depths) in [(20, 1), (12, 13), (6, 22)] {
        let name = format!("{ors} ors pending at each of {depths} depths");
        good &= decided(&name, 1, true, pending(ors, depths));
    }
    for grade in [1, 255] {
        good &= decided("31 relations at once", grade, true, relations(grade));
        good &= decided("31 needs of one fact", grade, true, needs(grade));
    }
    good &= bracketed("(", 511, Ok(1));
    for signs in ["(", "T&(", ">=1r7("] {
        good &= bracketed(signs, MANY, Err(Fault::TextLimit));
    }
    let nots = "!".repeat(MANY) + "T";
    good &= read("as many nots", Err(Fault::TextLimit), &nots);
    if good {
        ExitCode::SUCCESS
    } else {
        ExitCode::FAILURE
    }
}

/// Decides the last entry, marks it beside itself, and says whether the answers are the expected ones.
fn decided(name: &str, grade: u8, expected: bool, table: Writer) -> bool {
    let bytes = table.bytes();
    let entry = table.count() - 1;
    let needed = hurnavis::work_words(&bytes, entry, entry).expect("an accepted table");
    let mut words = vec![u64::MAX; needed];
    let started = Instant::now();
    let mut good = hurnavis::decide(&bytes, entry, &mut words) == Ok(expected);
    let mark = if expected {
        Mark::Equal
    } else {
        Mark::Impossible
    };
    good &= hurnavis::mark(&bytes, entry, entry, &mut words) == Ok(mark);
    good &= words.iter().all(|w| *w == 0);
    println!(
        "{} {name}, grade {grade}: {} entries, {needed} words, {:.1?}",
        if good { "ok   " } else { "WRONG" },
        table.count(),
        started.elapsed()
    );
    good
}

/// Reads a fact behind so many of the signs, with all brackets closed, and with one that is not.
fn bracketed(signs: &str, times: usize, expected: Result<usize, Fault>) -> bool {
    let text = signs.repeat(times) + "n1" + &")".repeat(times);
    let closed = read(&format!("{times} times {signs} closed"), expected, &text);
    let open = &text[..text.len() - 1];
    closed & read("the same with one left open", Err(Fault::TextGrammar), open)
}

/// Reads the text, and says whether the number of entries, or the refusal, is the expected one.
fn read(name: &str, expected: Result<usize, Fault>, text: &str) -> bool {
    let started = Instant::now();
    let good = hurnavis::read_text(text, &mut [0; 256]) == expected;
    println!(
        "{} text of {name}: {} bytes, {:.1?}",
        if good { "ok   " } else { "WRONG" },
        text.len(),
        started.elapsed()
    );
    good
}

/// 63 times "at least": the deepest table there is.
fn chain(grade: u8, over_false: bool) -> Writer {
    let mut t = Writer::new();
    let mut last = if over_false { t.falsity() } else { t.fact(0) };
    for _ in 0..63 {
        last = t.at_least(grade, 0, last);
    }
    t
}

fn limits(grade: u8) -> Writer {
    let mut t = Writer::new();
    let mut last = t.fact(0);
    for _ in 0..63 {
        last = t.at_most(grade, 0, last);
    }
    t
}

/// Each of the negated limits asks for one more successor than its grade: 256 at grade 255.
fn not_at_most(grade: u8) -> Writer {
    let mut t = Writer::new();
    let mut last = t.fact(0);
    for _ in 0..31 {
        let few = t.at_most(grade, 0, last);
        last = t.not(few);
    }
    t
}

fn nested(mut wrap: impl FnMut(&mut Writer, usize) -> usize) -> Writer {
    let mut t = Writer::new();
    let mut last = t.fact(0);
    for _ in 0..63 {
        last = wrap(&mut t, last);
    }
    t
}

/// At each depth a successor with this many "ors" that wait for a choice; the first alternative of each is excluded.
fn pending(ors: usize, depths: usize) -> Writer {
    let mut t = Writer::new();
    let wrong = t.fact(255);
    let mut all = t.not(wrong);
    for name in 0..ors {
        let right = t.fact(name as u8);
        let either = t.or(wrong, right);
        all = t.and(either, all);
    }
    let mut last = all;
    for _ in 0..depths {
        let here = t.and(last, all);
        last = t.at_least(1, 0, here);
    }
    t
}

/// As many relations as fit, each with a successor of its own.
fn relations(grade: u8) -> Writer {
    let mut t = Writer::new();
    let fact = t.fact(0);
    let wanted: Vec<usize> = (0..31).map(|r| t.at_least(grade, r, fact)).collect();
    t.all(&wanted);
    t
}

/// As many needs on one relation as fit, all of the same fact.
fn needs(grade: u8) -> Writer {
    let mut t = Writer::new();
    let fact = t.fact(0);
    let wanted: Vec<usize> = (0..31)
        .map(|i| t.at_least(grade - i.min(grade), 0, fact))
        .collect();
    t.all(&wanted);
    t
}
