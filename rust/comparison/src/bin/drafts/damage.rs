//! Drafts that mostly no steps give: a good one in which something small is broken, bytes without any sense, other lengths.

use crate::entries;
use crate::input::Input;
use crate::steps::{self, Style};
use hurnavis_comparison::independent::draft::{History, Step, BYTES, MOST_NAMES, NOT_SAVED};
use hurnavis_comparison::layout::MOST_ENTRIES;
use hurnavis_comparison::xorshift::Xorshift;

/// Where the number of entries stands, and behind it the saved lengths.
const COUNT: usize = 4 * MOST_ENTRIES;

/// A good draft with one to three faults, any of which may turn out to be none.
pub fn damaged(random: &mut Xorshift) -> Input {
    let count = entries::count(random);
    let history = steps::history(random, count);
    let mut draft = history.bytes();
    for _ in 0..random.pick(&[1, 1, 1, 2, 3]) {
        damage(random, &mut draft);
    }
    Input {
        family: "damaged",
        steps: tried(random, &history),
        draft,
    }
}

/// Bytes of any value, or ones that could nearly be a draft.
pub fn bytes(random: &mut Xorshift) -> Input {
    let mut draft = garbage(random, BYTES);
    if random.percent(60) {
        let count = random.below(4);
        draft[4 * count..COUNT].fill(0);
        draft[COUNT] = count as u8;
        draft[..4 * count].fill_with(|| random.pick(&[0, 0, 0, 0x10, 0x20, 0x30]));
        draft[COUNT + 1..].fill_with(|| random.pick(&[0, 0, 1, 2, 3, NOT_SAVED, NOT_SAVED]));
    }
    Input {
        family: "bytes",
        steps: tried(random, &History::fresh()),
        draft,
    }
}

/// A good draft, cut or with bytes behind it, some so many that 8 or 16 bits would count as many as a draft has.
pub fn lengths(random: &mut Xorshift) -> Input {
    const LENGTHS: &[usize] = &[
        0, 1, 17, 255, 256, 257, 271, 272, 274, 275, 512, 528, 529, 530, 546, 65_536, 65_809,
    ];
    let count = entries::count(random);
    let history = steps::history(random, count);
    let mut draft = history.bytes();
    let (any, border) = (random.below(2 * BYTES), random.pick(LENGTHS));
    let length = random.pick(&[any, border, border]);
    draft.resize(length, random.pick(&[0, NOT_SAVED]));
    Input {
        family: "lengths",
        steps: tried(random, &history),
        draft,
    }
}

/// A few steps that the draft of the history would mostly allow; at the end often a new draft and a step on it.
fn tried(random: &mut Xorshift, history: &History) -> Vec<Step> {
    let style = Style {
        add: 34,
        save: 33,
        ..Style::draw(random)
    };
    let mut tried = steps::draw(random, &style, history.clone(), 4);
    if random.percent(30) {
        tried.push(Step::New);
        tried.extend(steps::draw(random, &style, History::fresh(), 1));
    }
    tried
}

/// Anything, or one byte over and over.
pub fn garbage(random: &mut Xorshift, count: usize) -> Vec<u8> {
    let fill = random.pick(&[None, None, None, Some(0), Some(255)]);
    (0..count)
        .map(|_| fill.unwrap_or(random.word() as u8))
        .collect()
}

/// Breaks one thing.
fn damage(random: &mut Xorshift, draft: &mut [u8]) {
    let any = random.word() as u8;
    let at = random.below(BYTES);
    match random.below(8) {
        0 | 1 => behind(random, draft),
        2 => draft[COUNT] = number(random, draft[COUNT]),
        3 => draft[COUNT + 1 + random.below(MOST_NAMES)] = number(random, draft[COUNT]),
        4 | 5 => entry(random, draft),
        6 => draft[at] ^= 1 << random.below(8),
        _ => draft[at] = any,
    }
}

/// Some byte behind the entries, often the first or the last.
fn behind(random: &mut Xorshift, draft: &mut [u8]) {
    let first = 4 * usize::from(draft[COUNT]);
    if first < COUNT {
        let any = random.between(first, COUNT - 1);
        let at = random.pick(&[first, first + 3, COUNT - 1, any]);
        draft[at] = random.between(1, 255) as u8;
    }
}

/// A number of entries, or a saved length, near the number of entries or near the most.
fn number(random: &mut Xorshift, count: u8) -> u8 {
    let any = random.word() as u8;
    let (less, more) = (count.saturating_sub(1), count.saturating_add(1));
    random.pick(&[
        0, less, count, more, more, 63, 64, 65, 128, 253, 254, 255, any,
    ])
}

/// Makes an entry bad, or puts it where it may be.
fn entry(random: &mut Xorshift, draft: &mut [u8]) {
    let count = usize::from(draft[COUNT]).min(MOST_ENTRIES);
    if count == 0 {
        return;
    }
    let any = random.below(count);
    let number = random.pick(&[0, count - 1, any]);
    let (at, other) = (4 * number, 4 * any);
    match random.below(4) {
        0 => draft.copy_within(other..other + 4, at),
        _ => draft[at..at + 4].copy_from_slice(&entries::bad(random, number).to_be_bytes()),
    }
}
