use super::*;

/// The request's sentences as they stand: what binds least stands outermost, and of equal signs the last. Nothing, if the signs
/// are outside the grammar.
fn split(signs: &[Sign], entries: &mut Vec<Entry>) -> Option<u8> {
    for (sign, kind) in [(Sign::Or, layout::OR), (Sign::And, layout::AND)] {
        if let Some(at) = last_outside(signs, sign) {
            let first = split(&signs[..at], entries)?;
            let second = split(&signs[at + 1..], entries)?;
            return Some(push(entries, [kind, 0, first, second, 0]));
        }
    }
    match signs {
        [Sign::True] => Some(push(entries, [layout::TRUE, 0, 0, 0, 0])),
        [Sign::False] => Some(push(entries, [layout::FALSE, 0, 0, 0, 0])),
        [Sign::Fact(name)] => Some(push(entries, [layout::FACT, (*name)?, 0, 0, 0])),
        [Sign::Open, inner @ .., Sign::Close] => split(inner, entries),
        [Sign::Not, part @ ..] => {
            let part = split(part, entries)?;
            Some(push(entries, [layout::NOT, 0, part, 0, 0]))
        }
        [Sign::AtLeast(grade), Sign::Relation(name), part @ ..] => {
            let part = split(part, entries)?;
            Some(push(
                entries,
                [layout::AT_LEAST, (*name)?, part, 0, (*grade)?],
            ))
        }
        [Sign::AtMost(grade), Sign::Relation(name), part @ ..] => {
            let part = split(part, entries)?;
            Some(push(
                entries,
                [layout::AT_MOST, (*name)?, part, 0, (*grade)?],
            ))
        }
        _ => None,
    }
}

/// The last place of the sign that is in no brackets.
fn last_outside(signs: &[Sign], wanted: Sign) -> Option<usize> {
    let mut open = 0;
    let mut last = None;
    for (at, sign) in signs.iter().enumerate() {
        match sign {
            Sign::Open => open += 1,
            Sign::Close => open -= 1,
            sign if *sign == wanted && open == 0 => last = Some(at),
            _ => (),
        }
    }
    last
}

fn push(entries: &mut Vec<Entry>, [kind, name, first, second, grade]: [u8; 5]) -> u8 {
    entries.push(Entry {
        kind,
        name,
        first,
        second,
        grade,
    });
    entries.len() as u8 - 1
}

/// Every sign, and how it is typed.
const ALL: [(Sign, &str); 11] = [
    (Sign::True, "T"),
    (Sign::False, "F"),
    (Sign::Fact(Some(12)), "n12"),
    (Sign::Not, "!"),
    (Sign::And, "&"),
    (Sign::Or, "|"),
    (Sign::AtLeast(Some(2)), ">=2"),
    (Sign::AtMost(Some(0)), "<=0"),
    (Sign::Relation(Some(7)), "r7"),
    (Sign::Open, "("),
    (Sign::Close, ")"),
];

/// The signs with these numbers, read in both ways.
fn both_ways(numbers: &[usize], between: &str) {
    let typed: Vec<&str> = numbers.iter().map(|n| ALL[*n].1).collect();
    let signs: Vec<Sign> = numbers.iter().map(|n| ALL[*n].0).collect();
    let text = typed.join(between);
    let mut entries = Vec::new();
    let expected = split(&signs, &mut entries)
        .map(|_| entries)
        .ok_or(Fault::TextGrammar);
    assert_eq!(read(text.as_bytes(), 256), expected, "{text}");
}

#[test]
fn every_text_of_up_to_five_signs() {
    let mut numbers = Vec::new();
    loop {
        both_ways(&numbers, ["", " "][numbers.len() % 2]);
        // The next numbers, as one counts, and then one sign more.
        let Some(at) = numbers.iter().rposition(|n| *n + 1 < ALL.len()) else {
            numbers = vec![0; numbers.len() + 1];
            if numbers.len() > 5 {
                return;
            }
            continue;
        };
        numbers[at] += 1;
        numbers[at + 1..].fill(0);
    }
}

#[test]
fn numbers_are_written_in_one_way() {
    for (text, expected) in [
        ("0", Ok(Some(0))),
        ("7", Ok(Some(7))),
        ("255", Ok(Some(255))),
        ("256", Ok(None)),
        ("999", Ok(None)),
        ("1000", Ok(None)),
        ("18446744073709551616", Ok(None)),
        ("", Err(Fault::TextGrammar)),
        ("00", Err(Fault::TextGrammar)),
        ("01", Err(Fault::TextGrammar)),
        ("0256", Err(Fault::TextGrammar)),
    ] {
        assert_eq!(number(text.as_bytes()), expected, "{text}");
    }
}

#[test]
fn the_refusals_have_their_order() {
    let long = |text: &str| format!("{text:1025}");
    let refused = |text: &str| read(text.as_bytes(), 0).map(|entries| entries.len());
    assert_eq!(refused(""), Err(Fault::TextGrammar));
    assert_eq!(refused(&long("")), Err(Fault::TextGrammar));
    assert_eq!(refused(&long("n256 &")), Err(Fault::TextGrammar));
    assert_eq!(refused(&long("n1")), Err(Fault::TextLimit));
    assert_eq!(refused("n256"), Err(Fault::TextLimit));
    assert_eq!(refused(&("!".repeat(64) + "T")), Err(Fault::TextLimit));
    assert_eq!(refused(&("!".repeat(63) + "T")), Err(Fault::Space));
}
