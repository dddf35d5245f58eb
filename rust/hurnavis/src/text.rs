//! Prints descriptions as the text that the reader takes.

use crate::entry::{self, Entry, AND, AT_MOST, FACT, FALSE, MOST_ENTRIES, NOT, OR, TRUE};
use crate::{check_table, Fault};

/// The description of this entry as a text that [`read_text`](crate::read_text) accepts, with as few brackets as it needs.
///
/// A text cannot use a part twice, so a shared entry is printed wherever it is used. Where that makes over 64 entries it is
/// refused as [`Fault::TextLimit`], as the text would be. What [`check_table`] refuses is refused too, and so is a number of no
/// entry.
///
/// ```
/// use hurnavis::{print_text, read_text, Fault, Writer};
///
/// let mut table = Writer::new();
/// let p = table.fact(1);
/// let two = table.at_least(2, 7, p);
/// let neither = table.or(p, two);
/// let neither = table.not(neither);
/// assert_eq!(print_text(&table.bytes(), neither)?, "!(n1 | >=2 r7 n1)");
///
/// // What was read without sharing comes back, but for spaces and needless brackets.
/// let mut typed = [0; 256];
/// let count = read_text("(n1&(n2&n3))|T", &mut typed)?;
/// assert_eq!(print_text(&typed[..4 * count], count - 1)?, "n1 & (n2 & n3) | T");
///
/// // Each entry is twice the one before.
/// let mut doubled = Writer::new();
/// let mut last = doubled.truth();
/// for _ in 0..6 {
///     last = doubled.and(last, last);
/// }
/// assert_eq!(print_text(&doubled.bytes(), last), Err(Fault::TextLimit));
/// # Ok::<(), hurnavis::Fault>(())
/// ```
pub fn print_text(table: &[u8], entry: usize) -> Result<String, Fault> {
    check_table(table)?;
    let entries = entry::entries(table);
    match unfolded(&entries).get(entry) {
        None => Err(Fault::EntryNumber),
        Some(size) if *size > MOST_ENTRIES => Err(Fault::TextLimit),
        Some(_) => {
            let mut text = String::new();
            print(&entries, entry, Binding::Or, &mut text);
            Ok(text)
        }
    }
}

/// How many entries each entry is without sharing.
fn unfolded(entries: &[Entry]) -> Vec<usize> {
    let mut sizes: Vec<usize> = Vec::with_capacity(entries.len());
    for entry in entries {
        let parts = entry.parts().map(|part| sizes[part]);
        sizes.push(parts.fold(1, usize::saturating_add));
    }
    sizes
}

/// How closely a sign binds, the loosest first.
#[derive(Clone, Copy, PartialEq, Eq, PartialOrd, Ord)]
enum Binding {
    Or,
    And,
    Close,
}

fn binding(kind: u32) -> Binding {
    match kind {
        OR => Binding::Or,
        AND => Binding::And,
        _ => Binding::Close,
    }
}

/// Prints the entry, in brackets if it binds less closely than its place asks for. It calls itself some 64 deep at most.
fn print(entries: &[Entry], number: usize, least: Binding, text: &mut String) {
    let entry = entries[number];
    if binding(entry.kind) < least {
        text.push('(');
        print(entries, number, Binding::Or, text);
        text.push(')');
        return;
    }
    let counted = || format!("{} r{} ", entry.grade, entry.name);
    match entry.kind {
        TRUE => text.push('T'),
        FALSE => text.push('F'),
        FACT => text.push_str(&format!("n{}", entry.name)),
        NOT => prefixed(entries, entry, "!", text),
        AND => joined(entries, entry, [Binding::And, Binding::Close], " & ", text),
        OR => joined(entries, entry, [Binding::Or, Binding::And], " | ", text),
        AT_MOST => prefixed(entries, entry, &format!("<={}", counted()), text),
        _ => prefixed(entries, entry, &format!(">={}", counted()), text),
    }
}

/// The part behind the signs that it belongs to.
fn prefixed(entries: &[Entry], entry: Entry, signs: &str, text: &mut String) {
    text.push_str(signs);
    print(entries, entry.first, Binding::Close, text);
}

/// Both parts with the sign between them. Equal signs group leftwards, so the second part has to bind more closely.
fn joined(entries: &[Entry], entry: Entry, least: [Binding; 2], sign: &str, text: &mut String) {
    print(entries, entry.first, least[0], text);
    text.push_str(sign);
    print(entries, entry.second, least[1], text);
}

#[cfg(test)]
mod tests {
    use super::*;
    use crate::Writer;

    #[test]
    fn brackets_stand_where_the_grammar_needs_them() {
        for text in [
            "T",
            "!F",
            "!!n0",
            "n1 & n2 & n255",
            "n1 & (n2 & n3)",
            "n1 | (n2 | n3)",
            "n1 & n2 | n3 & n4",
            "(n1 | n2) & (n3 | n4)",
            "n1 & !(n2 & n3)",
            ">=0 r0 <=255 r255 !T",
            "<=1 r7 (n1 & n2) & >=2 r7 (n3 | n4)",
        ] {
            let mut table = Writer::new();
            let last = table.text(text).expect(text);
            assert_eq!(print_text(&table.bytes(), last).as_deref(), Ok(text));
        }
    }

    #[test]
    fn only_what_can_be_read_is_printed() {
        let mut table = Writer::new();
        let mut last = table.fact(0);
        for _ in 1..64 {
            last = table.not(last);
        }
        let text = print_text(&table.bytes(), last).expect("64 entries");
        let mut again = Writer::new();
        assert_eq!(again.text(text), Ok(last));
        assert_eq!(again, table);

        // Entry 63 is 2 to the power 64, less 1, entries long; entry 5 is 63 long, entry 6 is 127.
        let mut doubled = Writer::new();
        let mut last = doubled.truth();
        for _ in 1..64 {
            last = doubled.or(last, last);
        }
        let bytes = doubled.bytes();
        assert_eq!(print_text(&bytes, last), Err(Fault::TextLimit));
        assert_eq!(
            print_text(&bytes, 5).map(|text| text.len()),
            Ok(32 + 3 * 31 + 2 * 15)
        );
        assert_eq!(print_text(&bytes, 6), Err(Fault::TextLimit));
        assert_eq!(print_text(&bytes, 64), Err(Fault::EntryNumber));
        assert_eq!(print_text(&bytes[1..], 0), Err(Fault::TableLength));
    }
}
