//! Benchmarks: the library beside the independent side, both built for release, in one run.
//!
//! `bench` prints a Markdown table with one row a family, the slowest of its sizes, and behind it the open cases: what takes
//! longer than 10 ms. Tables of texts and of drafts follow, with a row for each size. The rows of all sizes go to `bench.md` in
//! the target directory. `bench --family TEXT` runs only the families whose name contains the text. Each size runs in a process
//! of its own, because a call cannot be interrupted: the process ends itself when a call takes over 2 seconds, and a growing
//! family stops there.

mod bounded;
mod case;
mod chains;
mod colours;
mod cycles;
mod drafts;
mod families;
mod numbers;
mod overlaps;
mod parts;
mod pigeons;
mod planes;
mod row;
mod slow_inputs;
mod tables;
mod texts;
mod worlds;

use case::Measured;
use families::Family;
use hurnavis_comparison::show;
use row::Row;
use std::env;
use std::fs::File;
use std::io::{self, Write};
use std::path::PathBuf;
use std::process::{Command, ExitCode};
use std::thread;
use std::time::Duration;

/// A call may take so long.
const LIMIT: Duration = Duration::from_secs(2);

fn main() -> ExitCode {
    let words: Vec<String> = env::args().skip(1).collect();
    let words: Vec<&str> = words.iter().map(String::as_str).collect();
    match words[..] {
        ["--one", family, size] => one(family, size),
        [] => all(""),
        ["--family", part] => all(part),
        _ => {
            eprintln!("usage: bench [--family TEXT]");
            ExitCode::FAILURE
        }
    }
}

/// Runs the families whose names contain the part.
fn all(part: &str) -> ExitCode {
    match measure(part) {
        Ok(()) => ExitCode::SUCCESS,
        Err(message) => {
            eprintln!("{message}");
            ExitCode::FAILURE
        }
    }
}

/// Runs every size of the families in turn, and prints what they come to.
fn measure(part: &str) -> Result<(), String> {
    let path = raw_rows().ok_or("no target directory for the raw rows")?;
    let no_file = |error: io::Error| format!("{}: {error}", path.display());
    let mut file = File::create(&path).map_err(no_file)?;
    writeln!(file, "{}", row::RAW).map_err(no_file)?;
    println!("{}", row::SUMMARY);
    let mut open = Vec::new();
    for family in families::all().filter(|f| f.name.contains(part)) {
        let rows = rows(family)?;
        for row in &rows {
            writeln!(file, "{}", row.raw(family)).map_err(no_file)?;
        }
        open.extend(rows.iter().filter(|r| r.is_open()).map(|r| r.open(family)));
        println!("{}", row::summary(family, &rows).unwrap_or_default());
    }
    let limit = show::time(row::OPEN);
    println!("\nOpen cases, over {limit}: {}\n", open.len());
    open.iter().for_each(|line| println!("{line}"));
    println!("\n{}", row::TEXTS);
    for family in texts::TEXTS.iter().filter(|f| f.name.contains(part)) {
        for row in rows(family)? {
            writeln!(file, "{}", row.raw(family)).map_err(no_file)?;
            println!("{}", row.text(family));
        }
    }
    println!("\n{}", row::DRAFTS);
    for family in drafts::DRAFTS.iter().filter(|f| f.name.contains(part)) {
        for row in rows(family)? {
            writeln!(file, "{}", row.raw(family)).map_err(no_file)?;
            println!("{}", row.draft(family));
        }
    }
    eprintln!("the rows of all sizes: {}", path.display());
    Ok(())
}

/// Beside the directory of the program, which is the target directory's.
fn raw_rows() -> Option<PathBuf> {
    let program = env::current_exe().ok()?;
    Some(program.parent()?.parent()?.join("bench.md"))
}

/// A row for each size, in a growing family up to the first that takes too long.
fn rows(family: &Family) -> Result<Vec<Row>, String> {
    let mut rows = Vec::new();
    for size in family.sizes {
        let at = format!("{}, {} {size}", family.name, family.size);
        let row = run(family, *size).ok_or(format!("{at}: the process failed"))?;
        if row.disagrees() {
            return Err(format!("{at}: the two sides disagree"));
        }
        let over = row.hurnavis.is_none();
        rows.push(row);
        if over && family.grows {
            break;
        }
    }
    Ok(rows)
}

/// Measures one size in a process of its own.
fn run(family: &Family, size: usize) -> Option<Row> {
    let program = env::current_exe().ok()?;
    let output = Command::new(program)
        .args(["--one", family.name, &size.to_string()])
        .output()
        .ok()?;
    if !output.status.success() {
        return None;
    }
    let text = String::from_utf8(output.stdout).ok()?;
    Some(Row {
        size,
        hurnavis: read(&text, "hurnavis"),
        independent: read(&text, "independent"),
    })
}

/// Reads back a line of `one`.
fn read(text: &str, side: &str) -> Option<Measured> {
    let line = text.lines().find_map(|l| l.strip_prefix(side))?;
    let (nanos, answer) = line.trim().split_once(' ')?;
    Some(Measured {
        answer: answer.into(),
        time: Duration::from_nanos(nanos.parse().ok()?),
    })
}

/// Measures one size here: first the independent side, which ends by itself, then the library within the limit.
fn one(family: &str, size: &str) -> ExitCode {
    let family = families::all()
        .chain(texts::TEXTS)
        .chain(drafts::DRAFTS)
        .find(|f| f.name == family);
    let (Some(family), Ok(size)) = (family, size.parse::<usize>()) else {
        return ExitCode::FAILURE;
    };
    let case = (family.case)(size);
    if let Some(measured) = case.independent() {
        write("independent", &measured);
    }
    thread::spawn(|| {
        thread::sleep(LIMIT);
        std::process::exit(0);
    });
    write("hurnavis", &case.hurnavis());
    ExitCode::SUCCESS
}

fn write(side: &str, measured: &Measured) {
    println!("{side} {} {}", measured.time.as_nanos(), measured.answer);
    io::stdout().flush().expect("the output is open");
}
