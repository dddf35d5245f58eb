//! Runs each call on an input and compares everything that documents 01 and 02 say about it.

use crate::input::{needed, Input};
use crate::tally::Tally;
use hurnavis::{raw, Fault, Mark};
use hurnavis_comparison::independent::drawn::Seen;
use hurnavis_comparison::independent::realisable::Limits;
use hurnavis_comparison::independent::{self, refusals};
use hurnavis_comparison::layout::{self, Entry, AND, NOT};
use hurnavis_comparison::trial::lent::{garbage, no_answer, no_words, untouched, worked};
use hurnavis_comparison::trial::outcome::{done, outcome, same, Outcome};
use hurnavis_comparison::xorshift::Xorshift;

/// Compares the library with the independent side on the input. The message says what differs.
pub fn input(input: &Input, random: &mut Xorshift, tally: &mut Tally) -> Result<(), String> {
    let checked = refusals::table(&input.table);
    let given_up = tally.given_up;
    check(input, &checked)?;
    for answer in [input.answer, input.model] {
        work_words(input, answer, random, tally)?;
    }
    board(input, random, tally)?;
    let decided = decide(input, random, tally)?;
    let marked = mark(input, random, tally)?;
    if let Ok(entries) = checked {
        if input.model < entries.len() && input.answer < entries.len() {
            let by_decisions = mark_by_decisions(&entries, input, tally)?;
            let marks = [marked, by_decisions];
            tried(&entries, input, random, decided, &marks, tally)?;
        }
    }
    let family = tally.families.entry(input.family).or_default();
    family.all += 1;
    family.unsatisfiable += (decided == Some(0)) as usize;
    family.given_up += (tally.given_up > given_up) as usize;
    Ok(())
}

fn check(input: &Input, checked: &Result<Vec<Entry>, Fault>) -> Result<(), String> {
    let expected = checked.as_ref().map_or_else(|fault| Err(*fault), |_| Ok(0));
    same(
        "check_table",
        done(raw::check_table(&input.table)),
        expected,
    )
}

/// The words that the library says are needed, beside those of the independent side.
fn work_words(
    input: &Input,
    answer: usize,
    random: &mut Xorshift,
    tally: &mut Tally,
) -> Result<(), String> {
    let place = no_words(random);
    let mut words = place;
    let status = raw::work_words(&input.table, input.model, answer, &mut words);
    let outcome = outcome("work_words", status, place, words)?;
    tally.work_words.note(outcome.map(|_| None));
    let expected = independent::work_words(&input.table, input.model, answer);
    same("work_words", outcome, expected.map(|words| words as u64))
}

fn board(input: &Input, random: &mut Xorshift, tally: &mut Tally) -> Result<(), String> {
    let before = garbage(random, input.board_words);
    let mut words = before.clone();
    let status = tally.timed(|| raw::board(&input.table, &input.structure, &mut words));
    tally.board.note(done(status).map(|_| None));
    match independent::board(&input.table, &input.structure, input.board_words) {
        Err(fault) => {
            same("board", done(status), Err(fault))?;
            untouched("board", &before, &words)
        }
        Ok(expected) => {
            same("board", done(status), Ok(0))?;
            let (written, rest) = words.split_at(expected.len());
            if written != expected {
                return Err(format!("board wrote {written:x?}, not {expected:x?}"));
            }
            untouched("board", &before[expected.len()..], rest)
        }
    }
}

/// The decision on the model's entry; answers what the library answers.
fn decide(input: &Input, random: &mut Xorshift, tally: &mut Tally) -> Result<Option<u64>, String> {
    let (place, before) = (no_answer(random), garbage(random, input.decide_words));
    let (mut possible, mut words) = (place, before.clone());
    let call = || raw::decide(&input.table, input.model, &mut words, &mut possible);
    let status = tally.timed(call);
    let outcome = outcome("decide", status, place, possible)?;
    tally.decide.note(outcome.map(Some));
    let expected = independent::decide(&input.table, input.model, words.len(), Limits::SMALL);
    let expected = expected.map(|known| known.map(u64::from));
    answered("decide", outcome, expected, 1, tally)?;
    let needed = needed(&input.table, &[input.model]);
    worked("decide", outcome, needed, &before, &words)?;
    Ok(outcome.ok())
}

fn mark(input: &Input, random: &mut Xorshift, tally: &mut Tally) -> Result<Option<u64>, String> {
    let (place, before) = (no_answer(random), garbage(random, input.mark_words));
    let (mut mark, mut words) = (place, before.clone());
    let (model, answer) = (input.model, input.answer);
    let status = tally.timed(|| raw::mark(&input.table, model, answer, &mut words, &mut mark));
    let outcome = outcome("mark", status, place, mark)?;
    tally.mark.note(outcome.map(Some));
    let expected = independent::mark(&input.table, model, answer, words.len(), Limits::SMALL);
    let expected = expected.map(|known| known.map(number));
    answered("mark", outcome, expected, 4, tally)?;
    let needed = needed(&input.table, &[model, answer]);
    worked("mark", outcome, needed, &before, &words)?;
    Ok(outcome.ok())
}

fn number(mark: Mark) -> u64 {
    mark.number().into()
}

/// The mark from three decisions: "answer", and "model and not answer" and "answer and not model", written behind the
/// table. It tries the decision on entries of which many are unsatisfiable.
fn mark_by_decisions(
    entries: &[Entry],
    input: &Input,
    tally: &mut Tally,
) -> Result<Option<u64>, String> {
    let count = entries.len();
    if count + 4 > layout::MOST_ENTRIES {
        return Ok(None);
    }
    let mut longer = entries.to_vec();
    longer.extend(alone(input.model, input.answer, count));
    longer.extend(alone(input.answer, input.model, count + 2));
    let bytes = layout::pack_table(&longer);
    let mut words = vec![0; needed(&bytes, &[count + 3])];
    let mut decided = |entry: usize| {
        let possible = tally.timed(|| hurnavis::decide(&bytes, entry, &mut words));
        possible.map_err(|fault| format!("decide on a longer table: {fault}"))
    };
    let (model_alone, answer_alone) = (decided(count + 1)?, decided(count + 3)?);
    let mark = match decided(input.answer)? {
        true => u64::from(model_alone) + 2 * u64::from(answer_alone),
        false => number(Mark::Impossible),
    };
    tally.by_decisions.note(Ok(Some(mark)));
    let expected = independent::compared(entries, input.model, input.answer, Limits::SMALL);
    let expected = expected.map(number);
    answered("mark by decisions", Ok(mark), Ok(expected), 4, tally)?;
    Ok(Some(mark))
}

/// "Not other", which is to stand at this number, and "one and not other".
fn alone(one: usize, other: usize, number: usize) -> [Entry; 2] {
    let not_other = [NOT, other as u8, 0];
    let one_alone = [AND, one as u8, number as u8];
    [not_other, one_alone].map(|[kind, first, second]| Entry {
        kind,
        name: 0,
        first,
        second,
        grade: 0,
    })
}

/// Whatever small structures show must be acknowledged by the answers.
fn tried(
    entries: &[Entry],
    input: &Input,
    random: &mut Xorshift,
    decided: Option<u64>,
    marks: &[Option<u64>],
    tally: &mut Tally,
) -> Result<(), String> {
    let seen = Seen::look(entries, 4, 6, 12, random);
    tally.structures += seen.structures();
    if seen.holds(input.model) {
        tally.seen_to_hold += 1;
        if decided == Some(0) {
            return Err("a structure satisfies an entry that is decided unsatisfiable".into());
        }
    }
    let model_alone = seen.separated(input.model, input.answer);
    let answer_alone = seen.separated(input.answer, input.model);
    tally.seen_apart += (model_alone || answer_alone) as usize;
    for mark in marks.iter().flatten() {
        let contradicted = match mark {
            4 => seen.holds(input.answer),
            // Bit 0 says that the model holds somewhere alone, bit 1 that the answer does.
            _ => model_alone && mark & 1 == 0 || answer_alone && mark & 2 == 0,
        };
        if contradicted {
            return Err(format!("a structure contradicts the mark {mark}"));
        }
    }
    Ok(())
}

/// The outcome is the expected one; where the independent side gives up, it is at least an answer.
fn answered(
    call: &str,
    outcome: Outcome,
    expected: Result<Option<u64>, Fault>,
    most: u64,
    tally: &mut Tally,
) -> Result<(), String> {
    let expected = match expected {
        Err(fault) => Err(fault),
        Ok(Some(answer)) => {
            tally.compared += 1;
            Ok(answer)
        }
        Ok(None) => {
            tally.given_up += 1;
            return match outcome {
                Ok(answer) if answer <= most => Ok(()),
                _ => Err(format!("{call}: {outcome:?}, which is no answer")),
            };
        }
    };
    same(call, outcome, expected)
}
