//! Typed descriptions: texts of the greatest length that is read, and ones far longer, which are refused.

use crate::case::{Case, Question};
use crate::families::{growing, Family};

/// The greatest length, and how much longer texts grow.
const SIZES: &[usize] = &[1 << 10, 1 << 16, 1 << 20, 1 << 24];

/// They have a table of their own, with the time for each byte.
pub const TEXTS: &[Family] = &[
    growing("text of 64 entries, far apart", "bytes", &[1024], far_apart),
    growing(
        "text of 64 entries, in brackets",
        "bytes",
        &[1024],
        |bytes| case(bracketed(&every_sign(), bytes)),
    ),
    growing("text of one fact in brackets", "bytes", SIZES, |bytes| {
        case(bracketed("n1", bytes))
    }),
    growing("text of open brackets", "bytes", SIZES, |bytes| {
        case("(".repeat(bytes))
    }),
    growing(
        "text of one fact with many digits",
        "bytes",
        SIZES,
        |bytes| case("n".to_string() + &"9".repeat(bytes - 1)),
    ),
    growing(
        "text of facts with \"and\" between them",
        "bytes",
        SIZES,
        |bytes| case(padded("n1&".repeat((bytes - 2) / 3) + "n1", bytes)),
    ),
    growing("text of \"not\" over and over", "bytes", SIZES, |bytes| {
        case("!".repeat(bytes - 1) + "T")
    }),
    growing("text of one fact and spaces", "bytes", SIZES, |bytes| {
        case(padded("n1".into(), bytes))
    }),
];

fn case(text: String) -> Case {
    Case {
        table: Vec::new(),
        question: Question::Read(text.into()),
    }
}

/// As many entries as a table holds.
fn every_sign() -> String {
    let eight = ">=2 r7 ( n12 & ! T ) | <=1 r255 F";
    format!("! ! ( {} )", [eight; 7].join(" | "))
}

/// Many spaces wherever there is one.
fn far_apart(bytes: usize) -> Case {
    let text = every_sign();
    let spaces = text.matches(' ').count();
    let each = (bytes - text.len()) / spaces + 1;
    case(padded(text.replace(' ', &" ".repeat(each)), bytes))
}

fn bracketed(text: &str, bytes: usize) -> String {
    let pairs = (bytes - text.len()) / 2;
    padded("(".repeat(pairs) + text + &")".repeat(pairs), bytes)
}

/// Spaces behind the text, until it is so long.
fn padded(mut text: String, bytes: usize) -> String {
    let missing = bytes - text.len();
    text.push_str(&" ".repeat(missing));
    text
}

#[cfg(test)]
mod tests {
    use super::*;
    use crate::case::read;
    use hurnavis_comparison::independent::text;

    #[test]
    fn the_texts_have_their_length_and_their_answer() {
        let answers = [
            "entries 64",
            "entries 64",
            "entries 1",
            "refused 11",
            "refused 12",
            "refused 12",
            "refused 12",
            "entries 1",
        ];
        for (family, answer) in TEXTS.iter().zip(answers) {
            for bytes in [1024, 1 << 16]
                .into_iter()
                .filter(|b| family.sizes.contains(b))
            {
                let Question::Read(text) = (family.case)(bytes).question else {
                    panic!("{} has no text", family.name);
                };
                assert_eq!(text.len(), bytes, "{}", family.name);
                let found = read(text::read(&text, 256).map(|entries| entries.len()));
                let long = bytes > 1024 && answer != "refused 11";
                let expected = if long { "refused 12" } else { answer };
                assert_eq!(found, expected, "{} of {bytes} bytes", family.name);
            }
        }
    }
}
