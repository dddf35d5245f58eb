//! Random steps, and drafts that came of some.

use crate::entries;
use hurnavis_comparison::independent::draft::{History, Step, MOST_NAMES};
use hurnavis_comparison::xorshift::Xorshift;

/// How a sequence goes. Shares are in percent.
pub struct Style {
    /// Of additions and of saves among all steps; the others come back.
    pub add: usize,
    pub save: usize,
    /// Of bad entries among the additions.
    pub bad: usize,
    /// How many of the names are used.
    pub names: usize,
    /// Of names over 15, and of names that may not be saved, in coming back.
    pub wrong: usize,
}

impl Style {
    pub fn draw(random: &mut Xorshift) -> Style {
        let add = random.pick(&[30, 60, 85, 90]);
        Style {
            add,
            save: random.between(3, (100 - add) * 3 / 4),
            bad: random.pick(&[0, 5, 30]),
            names: random.pick(&[1, 2, 4, MOST_NAMES]),
            wrong: random.pick(&[0, 5, 20]),
        }
    }

    fn step(&self, random: &mut Xorshift, history: &History) -> Step {
        match random.below(100) {
            at if at < self.add => Step::Add(entries::any(random, history.count(), self.bad)),
            at if at < self.add + self.save => Step::Save(self.name(random)),
            _ => Step::Back(self.saved(random, history)),
        }
    }

    fn name(&self, random: &mut Xorshift) -> u8 {
        match random.percent(self.wrong) {
            true => outside(random),
            false => random.below(self.names) as u8,
        }
    }

    /// A name that is saved, if there is one.
    fn saved(&self, random: &mut Xorshift, history: &History) -> u8 {
        let saved = history.names();
        if saved.is_empty() || random.percent(self.wrong) {
            let any = random.below(MOST_NAMES) as u8;
            let other = self.name(random);
            return random.pick(&[any, other]);
        }
        random.pick(&saved)
    }
}

/// A name over 15.
fn outside(random: &mut Xorshift) -> u8 {
    let any = random.between(MOST_NAMES, 255) as u8;
    random.pick(&[16, 16, 17, 31, 32, 64, 128, 240, 254, 255, any])
}

/// So many steps on the draft of the history.
pub fn draw(random: &mut Xorshift, style: &Style, mut history: History, count: usize) -> Vec<Step> {
    let mut steps = Vec::with_capacity(count);
    for _ in 0..count {
        let step = style.step(random, &history);
        // A refused step changes nothing, and the next is drawn.
        history.step(step).unwrap_or(());
        steps.push(step);
    }
    steps
}

/// What came of so many good entries, with names saved on the way.
pub fn history(random: &mut Xorshift, count: usize) -> History {
    let share = random.pick(&[0, 3, 20, 80]);
    let mut history = History::fresh();
    for place in 0..=count {
        if place > 0 {
            let entry = entries::good(random, place - 1);
            history.step(Step::Add(entry)).expect("a good entry");
        }
        let often = if place == count { 50 } else { share };
        if random.percent(often) {
            let name = random.below(MOST_NAMES) as u8;
            history.step(Step::Save(name)).expect("a good name");
        }
    }
    history
}
