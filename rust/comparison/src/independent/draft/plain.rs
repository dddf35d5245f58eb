//! The steps on the bytes alone, as a program would take them that trusts nobody with a draft. The benchmark has it beside the
//! library.

use super::{Step, BYTES, MOST_NAMES, NOT_SAVED};
use crate::independent::refusals;
use crate::layout::{Entry, MOST_ENTRIES};
use hurnavis::Fault;

/// Where the number of entries stands, and behind it the saved lengths.
const COUNT: usize = 4 * MOST_ENTRIES;
/// What stands behind the entries.
const ZEROS: [u8; COUNT] = [0; COUNT];

/// The step, or its refusal, which changes nothing.
pub fn step(draft: &mut [u8], step: Step) -> Result<(), Fault> {
    if draft.len() != BYTES {
        return Err(Fault::Draft);
    }
    if step == Step::New {
        draft[..=COUNT].fill(0);
        draft[COUNT + 1..].fill(NOT_SAVED);
        return Ok(());
    }
    if !given::<MOST_ENTRIES, MOST_NAMES>(draft) {
        return Err(Fault::Draft);
    }
    match step {
        Step::New => Ok(()),
        Step::Add(entry) => add(draft, entry),
        Step::Save(name) => save(draft, name),
        Step::Back(name) => back(draft, name),
    }
}

/// Whether some steps give this draft: entries without a fault, none of them over the most, zeros behind them, and each name not
/// saved or saved with no more entries than there are.
pub fn given<const ENTRIES: usize, const NAMES: usize>(draft: &[u8]) -> bool {
    if draft.len() != 4 * ENTRIES + 1 + NAMES {
        return false;
    }
    let (entries, lengths) = draft.split_at(4 * ENTRIES);
    let count = lengths[0];
    if usize::from(count) > ENTRIES {
        return false;
    }
    let (table, behind) = entries.split_at(4 * usize::from(count));
    let no_more = |length: &u8| *length == NOT_SAVED || *length <= count;
    *behind == ZEROS[..behind.len()]
        && lengths[1..].iter().all(no_more)
        && table.chunks_exact(4).enumerate().all(|(number, bytes)| {
            let entry = Entry::unpack([bytes[0], bytes[1], bytes[2], bytes[3]]);
            refusals::check_entry(number, entry).is_ok()
        })
}

fn add(draft: &mut [u8], entry: u32) -> Result<(), Fault> {
    let count = usize::from(draft[COUNT]);
    if count == MOST_ENTRIES {
        return Err(Fault::TableLength);
    }
    let bytes = entry.to_be_bytes();
    refusals::check_entry(count, Entry::unpack(bytes))?;
    draft[4 * count..4 * count + 4].copy_from_slice(&bytes);
    draft[COUNT] += 1;
    Ok(())
}

fn save(draft: &mut [u8], name: u8) -> Result<(), Fault> {
    let at = place(name)?;
    draft[at] = draft[COUNT];
    Ok(())
}

fn back(draft: &mut [u8], name: u8) -> Result<(), Fault> {
    let length = draft[place(name)?];
    if length == NOT_SAVED {
        return Err(Fault::Draft);
    }
    draft[4 * usize::from(length)..COUNT].fill(0);
    draft[COUNT] = length;
    for saved in draft[COUNT + 1..].iter_mut().filter(|l| **l > length) {
        *saved = NOT_SAVED;
    }
    Ok(())
}

/// Where the name's saved length stands.
fn place(name: u8) -> Result<usize, Fault> {
    match usize::from(name) {
        name if name < MOST_NAMES => Ok(COUNT + 1 + name),
        _ => Err(Fault::Draft),
    }
}
