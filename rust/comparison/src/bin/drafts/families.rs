//! The families of random inputs and their shares.

use crate::damage;
use crate::entries;
use crate::input::Input;
use crate::steps::{self, Style};
use hurnavis_comparison::independent::draft::{History, Step, BYTES, MOST_NAMES};
use hurnavis_comparison::xorshift::Xorshift;

/// The input of this generator.
pub fn draw(random: &mut Xorshift) -> Input {
    match random.below(100) {
        0..=24 => composed(random),
        25..=36 => full(random),
        37..=46 => names(random),
        47..=58 => added(random),
        59..=87 => damage::damaged(random),
        88..=93 => damage::bytes(random),
        _ => damage::lengths(random),
    }
}

/// A sequence from a fresh draft, which is made of whatever stood there.
fn composed(random: &mut Xorshift) -> Input {
    let draft = match random.percent(70) {
        true => damage::garbage(random, BYTES),
        false => drawn(random).bytes(),
    };
    let style = Style::draw(random);
    let count = random.pick(&[3, 10, 30, 90]);
    let mut steps = vec![Step::New];
    steps.extend(steps::draw(random, &style, History::fresh(), count));
    Input {
        family: "composed",
        draft,
        steps,
    }
}

/// A draft of about as many entries as there can be.
fn full(random: &mut Xorshift) -> Input {
    let count = random.pick(&[60, 62, 63, 63, 64, 64]);
    let style = Style {
        add: 60,
        save: 25,
        bad: random.pick(&[0, 40]),
        ..Style::draw(random)
    };
    on(random, "full", &style, count, 10)
}

/// Few entries, and names saved again and again, come back to and forgotten.
fn names(random: &mut Xorshift) -> Input {
    let style = Style {
        add: 25,
        save: 45,
        bad: 0,
        names: random.pick(&[2, 5, MOST_NAMES]),
        wrong: random.pick(&[0, 10, 30]),
    };
    let count = random.pick(&[0, 1, 3, 10]);
    on(random, "names", &style, count, 30)
}

/// A few entries, most of them bad.
fn added(random: &mut Xorshift) -> Input {
    let style = Style {
        add: 100,
        bad: 75,
        ..Style::draw(random)
    };
    let count = entries::count(random);
    on(random, "added", &style, count, 4)
}

/// Steps on a draft of so many entries.
fn on(
    random: &mut Xorshift,
    family: &'static str,
    style: &Style,
    count: usize,
    steps: usize,
) -> Input {
    let history = steps::history(random, count);
    Input {
        family,
        draft: history.bytes(),
        steps: steps::draw(random, style, history, steps),
    }
}

fn drawn(random: &mut Xorshift) -> History {
    let count = entries::count(random);
    steps::history(random, count)
}
