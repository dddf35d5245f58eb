//! The families of random texts and their shares.

use crate::borders;
use crate::damage;
use crate::input::Input;
use crate::tree;
use hurnavis_comparison::xorshift::Xorshift;

/// The input of this generator.
pub fn draw(random: &mut Xorshift) -> Input {
    match random.below(100) {
        0..=29 => typed(random),
        30..=51 => damage::damaged(random),
        52..=63 => signs(random),
        64..=73 => damage::bytes(random),
        74..=79 => borders::lengths(random),
        80..=86 => borders::numbers(random),
        87..=92 => borders::entries(random),
        93..=97 => borders::brackets(random),
        98 => borders::long(random),
        _ => borders::blank(random),
    }
}

/// A description as it may be typed.
fn typed(random: &mut Xorshift) -> Input {
    let most = random.pick(&[3, 8, 20, 64, 70]);
    let size = random.between(1, most);
    let tree = tree::draw(random, size);
    Input::typed(random, "typed", &tree)
}

/// What stands before a description, or is one, and what stands behind one.
const PARTS: &[&str] = &[
    "T", "F", "n1", "n255", "!", "(", "(", ">=2 r7", "<=0r255", ">=2", "r7",
];
const BEHIND: &[&str] = &["&", "|", "&", ")"];

/// Whole signs, most of which may stand where they do. Brackets are often closed at the end.
fn signs(random: &mut Xorshift) -> Input {
    let wrong = random.pick(&[0, 0, 5, 30]);
    let between = random.pick(&["", "", " ", "  "]);
    let (mut text, mut behind, mut open) = (String::new(), false, 0_usize);
    for _ in 0..random.between(1, 14) {
        let fitting = if behind != random.percent(wrong) {
            BEHIND
        } else {
            PARTS
        };
        let sign = random.pick(fitting);
        match sign {
            ">=2" | "r7" if !random.percent(wrong) => continue,
            ")" if open == 0 && !random.percent(wrong) => continue,
            "(" => open += 1,
            ")" => open = open.saturating_sub(1),
            _ => (),
        }
        behind = matches!(sign, "T" | "F" | "n1" | "n255" | ")");
        text = text + sign + between;
    }
    if random.percent(80) {
        let last = if behind { "" } else { "T" };
        text = text + last + &")".repeat(open);
    }
    Input::new(random, "signs", text.into())
}
