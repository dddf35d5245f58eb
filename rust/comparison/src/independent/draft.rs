//! Document 02's P9, drafts to return to, as the request tells it: a history of steps, in which what is saved is a copy of all
//! entries. The bytes of a draft have only its length.
//!
//! Which bytes some history gives is found by going through one. A name that is still saved has a start of the entries: coming
//! back to fewer would have forgotten it. So if any steps give the bytes, then these do, which never come back: the entries are
//! added in their order, and each name is saved when there are as many as it was saved with.
//!
//! [`plain`] is a second way, on the bytes alone.

pub mod plain;

use super::refusals;
use crate::layout::{Entry, MOST_ENTRIES};
use hurnavis::Fault;
use std::fmt;

/// The names are numbered from 0.
pub const MOST_NAMES: usize = 16;
/// The bytes of a draft: entries, their number, saved lengths.
pub const BYTES: usize = 4 * MOST_ENTRIES + 1 + MOST_NAMES;
/// In the place of a saved length, if the name is not saved.
pub const NOT_SAVED: u8 = 255;

/// What an engineer does.
#[derive(Clone, Copy, Debug, PartialEq, Eq)]
pub enum Step {
    New,
    Add(u32),
    Save(u8),
    Back(u8),
}

impl fmt::Display for Step {
    fn fmt(&self, f: &mut fmt::Formatter<'_>) -> fmt::Result {
        match self {
            Step::New => write!(f, "new"),
            Step::Add(entry) => write!(f, "add {entry:#010x}"),
            Step::Save(name) => write!(f, "save {name}"),
            Step::Back(name) => write!(f, "back {name}"),
        }
    }
}

/// What came of steps from a fresh draft. The tests have histories of fewer entries and names, to go through all of them.
#[derive(Clone, Debug, PartialEq, Eq, Hash)]
pub struct History<const ENTRIES: usize = MOST_ENTRIES, const NAMES: usize = MOST_NAMES> {
    entries: Vec<u32>,
    saved: [Option<Vec<u32>>; NAMES],
}

impl<const ENTRIES: usize, const NAMES: usize> History<ENTRIES, NAMES> {
    /// Empty, with no name saved.
    pub fn fresh() -> Self {
        History {
            entries: Vec::new(),
            saved: [const { None }; NAMES],
        }
    }

    /// The number of entries.
    pub fn count(&self) -> usize {
        self.entries.len()
    }

    /// The names that are saved.
    pub fn names(&self) -> Vec<u8> {
        let saved = |name: &u8| self.saved[usize::from(*name)].is_some();
        (0..NAMES as u8).filter(saved).collect()
    }

    /// One step more, or its refusal, which changes nothing.
    pub fn step(&mut self, step: Step) -> Result<(), Fault> {
        match step {
            Step::New => *self = Self::fresh(),
            Step::Add(entry) => self.add(entry)?,
            Step::Save(name) => self.save(name)?,
            Step::Back(name) => self.back(name)?,
        }
        Ok(())
    }

    /// The 65th entry is 1 whatever it is, since an entry is bad only at its place.
    fn add(&mut self, entry: u32) -> Result<(), Fault> {
        if self.count() == ENTRIES {
            return Err(Fault::TableLength);
        }
        refusals::check_entry(self.count(), Entry::unpack(entry.to_be_bytes()))?;
        self.entries.push(entry);
        Ok(())
    }

    fn save(&mut self, name: u8) -> Result<(), Fault> {
        let saved = self.saved.get_mut(usize::from(name));
        *saved.ok_or(Fault::Draft)? = Some(self.entries.clone());
        Ok(())
    }

    fn back(&mut self, name: u8) -> Result<(), Fault> {
        let Some(Some(entries)) = self.saved.get(usize::from(name)) else {
            return Err(Fault::Draft);
        };
        self.entries = entries.clone();
        let most = self.entries.len();
        for saved in &mut self.saved {
            saved.take_if(|entries| entries.len() > most);
        }
        Ok(())
    }

    /// The draft: the entries and zeros behind them, their number, and the length of what each name has.
    pub fn bytes(&self) -> Vec<u8> {
        let entries = self.entries.iter().flat_map(|entry| entry.to_be_bytes());
        let mut bytes: Vec<u8> = entries.collect();
        bytes.resize(4 * ENTRIES, 0);
        bytes.push(self.count() as u8);
        bytes.extend(self.saved.iter().map(|saved| match saved {
            Some(entries) => entries.len() as u8,
            None => NOT_SAVED,
        }));
        bytes
    }

    /// A history that gives these bytes, if there is one.
    pub fn giving(bytes: &[u8]) -> Option<Self> {
        if bytes.len() != 4 * ENTRIES + 1 + NAMES {
            return None;
        }
        let (entries, lengths) = bytes.split_at(4 * ENTRIES);
        let (count, saved) = lengths.split_first()?;
        let mut history = Self::fresh();
        for length in 0..=*count {
            for (name, _) in saved.iter().enumerate().filter(|(_, l)| **l == length) {
                history.save(name.try_into().ok()?).ok()?;
            }
            if length < *count {
                let entry = entries.chunks_exact(4).nth(length.into())?;
                let entry = u32::from_be_bytes(entry.try_into().ok()?);
                history.add(entry).ok()?;
            }
        }
        (history.bytes() == bytes).then_some(history)
    }
}

/// What is lent as a draft, and the history that gives it, if there is one.
#[derive(Clone, Debug)]
pub struct Draft {
    bytes: Vec<u8>,
    history: Option<History>,
}

impl Draft {
    pub fn of(bytes: &[u8]) -> Draft {
        Draft {
            bytes: bytes.to_vec(),
            history: History::giving(bytes),
        }
    }

    pub fn bytes(&self) -> &[u8] {
        &self.bytes
    }

    pub fn history(&self) -> Option<&History> {
        self.history.as_ref()
    }

    /// The step, or its refusal: 16, for an addition then 1, and then 2, 3, 4. Only a new draft can be had from any bytes.
    pub fn step(&mut self, step: Step) -> Result<(), Fault> {
        if step == Step::New && self.bytes.len() == BYTES {
            self.history = Some(History::fresh());
        }
        let history = self.history.as_mut().ok_or(Fault::Draft)?;
        history.step(step)?;
        self.bytes = history.bytes();
        Ok(())
    }
}

#[cfg(test)]
mod tests;
