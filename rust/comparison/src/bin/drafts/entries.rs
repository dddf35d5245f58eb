//! Entries to add: good ones at their place, and bad ones.

use hurnavis_comparison::layout::{self, Entry, MOST_ENTRIES};
use hurnavis_comparison::xorshift::Xorshift;

/// An entry without a fault at this place.
pub fn good(random: &mut Xorshift, place: usize) -> u32 {
    let kind = match place {
        0 => random.pick(&[layout::TRUE, layout::FALSE, layout::FACT]),
        _ => random.below(8) as u8,
    };
    let first = random.below(place.max(1));
    let second = random.below(place.max(1));
    let last = place.saturating_sub(1);
    let references = [
        random.pick(&[0, last, first]),
        random.pick(&[0, last, second]),
    ];
    word(random, kind, references)
}

/// An entry that has a fault at this place; now and then it turns out to have none.
pub fn bad(random: &mut Xorshift, place: usize) -> u32 {
    let entry = good(random, place);
    match random.below(7) {
        // A kind from 8 to 15, alone or with other faults.
        0 => entry | 1 << 31,
        1 => random.word() as u32 | 1 << 31,
        // A bit more, mostly in a field that is not used.
        2 => entry ^ 1 << random.below(28),
        3 => entry | 1 << random.below(8),
        4 => reference(random, place),
        // A reference and a field: what is not used comes first.
        5 => reference(random, place) | 1 << random.below(28),
        _ => random.word() as u32,
    }
}

/// A good entry, or with this share, in percent, a bad one.
pub fn any(random: &mut Xorshift, place: usize, share: usize) -> u32 {
    match random.percent(share) {
        true => bad(random, place),
        false => good(random, place),
    }
}

/// An entry that refers to itself or to a later one.
fn reference(random: &mut Xorshift, place: usize) -> u32 {
    let far = random.between(place.min(63), 63);
    let to = random.pick(&[place, place + 1, far, 63]).min(63);
    let earlier = random.below(place.max(1));
    let kind = random.between(layout::NOT.into(), layout::AT_MOST.into()) as u8;
    let joins = kind == layout::AND || kind == layout::OR;
    let references = match joins && random.percent(50) {
        true => [earlier, to],
        false => [to, earlier],
    };
    word(random, kind, references)
}

/// The entry with something in each field that its kind uses.
fn word(random: &mut Xorshift, kind: u8, [first, second]: [usize; 2]) -> u32 {
    let (name, grade) = (number(random), number(random));
    let counts = kind == layout::AT_LEAST || kind == layout::AT_MOST;
    let joins = kind == layout::AND || kind == layout::OR;
    let used = |used: bool, value: u8| if used { value } else { 0 };
    let entry = Entry {
        kind,
        name: used(kind == layout::FACT || counts, name),
        first: used(kind >= layout::NOT, first as u8),
        second: used(joins, second as u8),
        grade: used(counts, grade),
    };
    u32::from_be_bytes(entry.pack())
}

fn number(random: &mut Xorshift) -> u8 {
    let any = random.word() as u8;
    random.pick(&[0, 1, 7, 255, any, any])
}

/// A number of entries, often one at a border.
pub fn count(random: &mut Xorshift) -> usize {
    let any = random.below(MOST_ENTRIES + 1);
    random.pick(&[0, 1, 2, 3, 8, 31, 32, 62, 63, 64, any, any])
}
