//! A search for tables on which the decision is slow.
//!
//! `slowest --seed S --seconds N` draws random tables for a quarter of the time, then climbs from the slowest ones: a
//! small change is kept where it makes the decision of the last entry slower. It prints the ten slowest, each from
//! another start: entry number and table in hexadecimal, as the benchmark's family of slow inputs takes them, the answer,
//! the time, and the formula. Ranked is the time less what looking through W words takes, since W alone must not win.
//! What is drawn and changed depends on the seed; what is kept depends on times, so two runs differ a little.
//!
//! - `--limit M`: a call that takes longer than M milliseconds, otherwise 2,000, is abandoned, and its table climbed no
//!   further. The search ends early when there are twenty such tables.
//! - `--grade G`: no grade is greater, to find what is slow by its shape.
//! - `--folded yes`: only tables without equal entries and without "at least 0".
//! - `--shrink ENTRY:HEX`: no search, but one table, from which is taken away what can go while it passes the limit.

mod change;
mod describe;
mod draw;
mod fold;
mod search;
mod shrink;
mod worker;

use hurnavis_comparison::layout;
use hurnavis_comparison::xorshift::Xorshift;
use search::Space;
use std::process::ExitCode;
use std::time::Duration;

struct Flags {
    seed: u64,
    seconds: u64,
    limit: Duration,
    space: Space,
    shrink: Option<(usize, Vec<u8>)>,
}

fn main() -> ExitCode {
    if std::env::args().nth(1).as_deref() == Some(worker::FLAG) {
        worker::work();
        return ExitCode::SUCCESS;
    }
    let Some(flags) = flags() else {
        eprintln!("usage: slowest [--seed S] [--seconds N] [--limit M] [--grade G] [--folded yes]");
        eprintln!("       slowest --shrink ENTRY:HEX [--seconds N] [--limit M]");
        return ExitCode::FAILURE;
    };
    let time = Duration::from_secs(flags.seconds);
    let mut meter = search::Meter::start(flags.limit);
    if let Some((entry, table)) = flags.shrink {
        let table = layout::unpack_table(&table);
        let table = change::reachable(&table[..=entry]);
        let small = shrink::shrunk(table, time, &mut meter);
        search::print(&meter.measured(small));
        return ExitCode::SUCCESS;
    }
    let mut random = Xorshift::new(flags.seed, 0);
    let found = search::run(&mut random, flags.space, time, &mut meter);
    found.iter().for_each(search::print);
    println!(
        "seed {}: {} tables measured, {} over {:?}; {:.2} ns a word taken off",
        flags.seed, meter.measures, meter.abandoned, flags.limit, meter.word
    );
    ExitCode::SUCCESS
}

fn flags() -> Option<Flags> {
    let mut flags = Flags {
        seed: 1,
        seconds: 60,
        limit: Duration::from_secs(2),
        space: Space {
            grade: 255,
            folded: false,
        },
        shrink: None,
    };
    let mut words = std::env::args().skip(1);
    while let Some(flag) = words.next() {
        let value = words.next()?;
        match flag.as_str() {
            "--seed" => flags.seed = value.parse().ok()?,
            "--seconds" => flags.seconds = value.parse().ok()?,
            "--grade" => flags.space.grade = value.parse().ok()?,
            "--folded" => flags.space.folded = value == "yes",
            "--limit" => flags.limit = Duration::from_millis(value.parse().ok()?),
            "--shrink" => {
                let (entry, hex) = value.split_once(':')?;
                let (entry, table) = (entry.parse().ok()?, worker::bytes(hex)?);
                flags.shrink = (entry < table.len() / 4).then_some((entry, table));
                flags.shrink.as_ref()?;
            }
            _ => return None,
        }
    }
    Some(flags)
}
