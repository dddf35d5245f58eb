//! Runs the reader on an input and compares everything that document 02's P1 says about it.

use crate::damage;
use crate::input::Input;
use crate::tally::Tally;
use hurnavis::{raw, Fault};
use hurnavis_comparison::independent::text::{self, MOST_BYTES};
use hurnavis_comparison::layout::{self, Entry, MOST_ENTRIES};
use hurnavis_comparison::trial::outcome::{outcome, same};
use hurnavis_comparison::xorshift::Xorshift;
use std::time::Instant;

/// So many bytes before and behind the text and the lent bytes belong to nobody.
const AROUND: usize = 9;

/// Compares the library with the independent side on the input. The message says what differs.
pub fn input(input: &Input, random: &mut Xorshift, tally: &mut Tally) -> Result<(), String> {
    let expected = text::read(&input.text, input.lent);
    typed_from(input)?;
    read(input, &expected, random, tally)?;
    let family = tally.families.entry(input.family).or_default();
    family.0 += 1;
    tally.longest = tally.longest.max(input.text.len());
    if let Ok(entries) = expected {
        round_trip(&layout::pack_table(&entries))?;
        family.1 += 1;
        tally.round_trips += 1;
        tally.longest_read = tally.longest_read.max(input.text.len());
    }
    Ok(())
}

/// The independent side reads the tree that the text was typed from.
fn typed_from(input: &Input) -> Result<(), String> {
    let Some(known) = &input.known else {
        return Ok(());
    };
    let read = text::read(&input.text, 4 * MOST_ENTRIES);
    let expected = match input.text.len() {
        0..=MOST_BYTES => Ok(known),
        _ => Err(&Fault::TextLimit),
    };
    if read.as_ref() == expected {
        return Ok(());
    }
    Err("the independent side does not read what was typed".into())
}

/// The call, with bytes around the text that would change what it says, and garbage in and around what is lent.
fn read(
    input: &Input,
    expected: &Result<Vec<Entry>, Fault>,
    random: &mut Xorshift,
    tally: &mut Tally,
) -> Result<(), String> {
    let text = surrounded(random, &input.text);
    let before = garbage(random, input.lent + 2 * AROUND);
    let places = [random.between(MOST_ENTRIES + 1, 255) as u8; 3];
    let (mut after, mut entries) = (before.clone(), places);

    let typed = &text[AROUND..AROUND + input.text.len()];
    let lent = &mut after[AROUND..AROUND + input.lent];
    let started = Instant::now();
    let status = raw::read_text(typed, lent, &mut entries[1]);
    tally.in_library += started.elapsed();

    let outcome = outcome("read_text", status, places[1], entries[1])?;
    tally.read_text.note(outcome.map(|_| None));
    let count = expected.as_ref().map(|entries| entries.len() as u64);
    same("read_text", outcome, count.map_err(|fault| *fault))?;
    if [entries[0], entries[2]] != [places[0], places[2]] {
        return Err("read_text wrote beside the place of its answer".into());
    }
    let written = expected
        .as_ref()
        .map_or(Vec::new(), |entries| layout::pack_table(entries));
    left(&before, &after, &written)
}

/// The bytes are as before, but for the table.
fn left(before: &[u8], after: &[u8], table: &[u8]) -> Result<(), String> {
    let mut expected = before.to_vec();
    expected[AROUND..AROUND + table.len()].copy_from_slice(table);
    match (0..expected.len()).find(|i| after[*i] != expected[*i]) {
        None => Ok(()),
        Some(at) => Err(format!(
            "read_text: byte {} of what was lent is {:#04x}, not {:#04x}",
            at as isize - AROUND as isize,
            after[at],
            expected[at]
        )),
    }
}

fn surrounded(random: &mut Xorshift, text: &[u8]) -> Vec<u8> {
    let mut around = || [(); AROUND].map(|()| damage::byte(random, 0));
    [&around(), text, &around()].concat()
}

fn garbage(random: &mut Xorshift, count: usize) -> Vec<u8> {
    let fill = random.pick(&[None, None, Some(0), Some(255)]);
    (0..count)
        .map(|_| fill.unwrap_or(random.word() as u8))
        .collect()
}

/// The library accepts the table, and reads it again from what it prints, and prints that in the same way.
fn round_trip(table: &[u8]) -> Result<(), String> {
    let print = |table: &[u8]| {
        let last = table.len() / 4 - 1;
        hurnavis::print_text(table, last).map_err(|fault| format!("print_text: {fault}"))
    };
    let text = print(table)?;
    let mut again = [0; 4 * MOST_ENTRIES];
    let count = hurnavis::read_text(&text, &mut again)
        .map_err(|fault| format!("{text}, which was printed, is {fault}"))?;
    let again = &again[..4 * count];
    if again != table {
        return Err(format!("{text}, which was printed, is another table"));
    }
    if print(again)? != text {
        return Err(format!("{text} is printed in another way"));
    }
    hurnavis::check_table(table).map_err(|fault| format!("check_table: {fault}"))
}
