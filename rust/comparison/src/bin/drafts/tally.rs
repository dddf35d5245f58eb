//! What was compared, in numbers.

use hurnavis_comparison::independent::draft::{History, Step};
use hurnavis_comparison::layout::MOST_ENTRIES;
use hurnavis_comparison::trial::outcome::Outcome;
use hurnavis_comparison::trial::outcomes::Outcomes;
use std::collections::BTreeMap;
use std::time::Duration;

/// How many inputs of a family there were, how many of them lend a draft that some steps give, their steps, and how many of
/// these were not refused.
#[derive(Default)]
pub struct Inputs {
    pub all: usize,
    pub given: usize,
    pub steps: usize,
    pub taken: usize,
}

#[derive(Default)]
pub struct Tally {
    pub families: BTreeMap<&'static str, Inputs>,
    new: Outcomes,
    add: Outcomes,
    save: Outcomes,
    back: Outcomes,
    /// Tables of drafts that the library was asked to check.
    pub tables: usize,
    /// Steps on drafts of as many entries as there can be, saves under a name that was used, and names forgotten.
    full: usize,
    replaced: usize,
    forgotten: usize,
    pub in_library: Duration,
}

impl Tally {
    /// What came of a step.
    pub fn note(&mut self, step: Step, outcome: Outcome) {
        let outcomes = match step {
            Step::New => &mut self.new,
            Step::Add(_) => &mut self.add,
            Step::Save(_) => &mut self.save,
            Step::Back(_) => &mut self.back,
        };
        outcomes.note(outcome.map(|_| None));
    }

    /// What a step did to a draft that some steps give.
    pub fn note_change(&mut self, step: Step, before: &History, after: &History) {
        self.full += (before.count() == MOST_ENTRIES) as usize;
        let [names, left] = [before, after].map(History::names);
        match step {
            Step::Save(name) => self.replaced += names.contains(&name) as usize,
            Step::Back(_) => self.forgotten += names.len() - left.len(),
            _ => (),
        }
    }

    pub fn print(&self) {
        println!("inputs by family, those with a draft that some steps give, steps, and those of them that were taken:");
        for (family, inputs) in &self.families {
            println!(
                "    {family:16} {:8} {:8} {:8} {:8}",
                inputs.all, inputs.given, inputs.steps, inputs.taken
            );
        }
        self.new.print("draft_new");
        self.add.print("draft_add");
        self.save.print("draft_save");
        self.back.print("draft_back");
        println!(
            "steps on 64 entries: {}, names saved again: {}, names forgotten: {}, tables checked: {}",
            self.full, self.replaced, self.forgotten, self.tables
        );
    }
}
