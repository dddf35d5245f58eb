//! Steps on drafts: the call checks the whole draft first, so its entries are what grows.

use crate::case::{Case, Question};
use crate::families::{growing, Family};
use hurnavis::{entry, Draft, Fault};
use hurnavis_comparison::independent::draft::Step;

/// The empty draft, one with room for one entry more, and the full one.
const WITH_ROOM: &[usize] = &[0, 63];
const ALL: &[usize] = &[0, 64];

/// They have a table of their own, with the time of one step.
pub const DRAFTS: &[Family] = &[
    growing("draft: a new one", "entries", &[64], |entries| {
        case(entries, Step::New)
    }),
    growing("draft: add", "entries", WITH_ROOM, |entries| {
        case(entries, Step::Add(entry::fact(1)))
    }),
    growing("draft: add a bad entry", "entries", WITH_ROOM, |entries| {
        case(entries, Step::Add(entry::not(entries)))
    }),
    growing("draft: add a 65th entry", "entries", &[64], |entries| {
        case(entries, Step::Add(entry::fact(1)))
    }),
    growing("draft: save", "entries", ALL, |entries| {
        case(entries, Step::Save(0))
    }),
    growing(
        "draft: come back to no entries",
        "entries",
        ALL,
        |entries| case(entries, Step::Back(FIRST)),
    ),
    growing("draft: come back to all", "entries", ALL, |entries| {
        case(entries, Step::Back(LAST))
    }),
];

/// The names of the empty draft and of the whole one.
const FIRST: u8 = 14;
const LAST: u8 = 15;

/// The step on a draft of so many entries.
fn case(entries: usize, step: Step) -> Case {
    let draft = draft(entries).expect("a draft without faults");
    Case {
        table: Vec::new(),
        question: Question::Step(draft.into(), step),
    }
}

/// Entries of every kind that refers to others, over facts.
fn draft(entries: usize) -> Result<Draft, Fault> {
    let mut draft = Draft::new();
    draft.save(FIRST)?;
    for number in 0..entries {
        let last = number.saturating_sub(1);
        draft.add(match number % 6 {
            1 => entry::not(last),
            2 => entry::and(last, 0),
            3 => entry::or(0, last),
            4 => entry::at_least(255, 7, last),
            5 => entry::at_most(2, 255, last),
            _ => entry::fact(number as u8),
        })?;
    }
    draft.save(LAST)?;
    Ok(draft)
}

#[cfg(test)]
mod tests {
    use super::*;
    use crate::case::read;
    use hurnavis_comparison::independent::draft::plain;

    #[test]
    fn the_steps_have_their_answer() {
        for family in DRAFTS {
            for size in family.sizes {
                let Question::Step(draft, step) = (family.case)(*size).question else {
                    panic!("{} has no step", family.name);
                };
                assert_eq!(draft.count(), *size);
                let mut bytes = *draft.bytes();
                let taken = plain::step(&mut bytes, step);
                let found = read(taken.map(|()| bytes[256].into()));
                let expected = match family.name {
                    "draft: a new one" | "draft: come back to no entries" => "entries 0".into(),
                    "draft: add" => format!("entries {}", size + 1),
                    "draft: add a bad entry" => "refused 4".into(),
                    "draft: add a 65th entry" => "refused 1".into(),
                    _ => format!("entries {size}"),
                };
                assert_eq!(found, expected, "{} of {size} entries", family.name);
            }
        }
    }
}
