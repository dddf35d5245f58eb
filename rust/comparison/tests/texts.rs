//! Document 02's P1, typed descriptions, on the library and on the independent side; and the package's printer.

use hurnavis::{print_text, Fault, Writer};
use hurnavis_comparison::independent::text;
use hurnavis_comparison::layout::{
    self, Entry, AND, AT_LEAST, AT_MOST, FACT, MOST_ENTRIES, NOT, OR,
};
use hurnavis_comparison::xorshift::Xorshift;

/// The table of the text, or its refusal, which both sides agree on.
fn read(text: impl AsRef<[u8]>) -> Result<Vec<u8>, Fault> {
    let text = text.as_ref();
    let mut table = [0xa5; 256];
    let library = hurnavis::read_text(text, &mut table).map(|count| {
        let (table, behind) = table.split_at(4 * count);
        assert!(behind.iter().all(|b| *b == 0xa5));
        table.to_vec()
    });
    let independent = text::read(text, 256).map(|entries| layout::pack_table(&entries));
    assert_eq!(library, independent, "{}", text.escape_ascii());
    library
}

#[test]
fn each_sign_is_an_entry() {
    let mut t = Writer::new();
    let parts = [t.truth(), t.fact(12)];
    let without = t.not(parts[1]);
    let both = t.and(parts[0], without);
    let some = t.at_least(2, 7, both);
    let no = t.falsity();
    let few = t.at_most(2, 7, no);
    t.or(some, few);
    let expected = Ok(t.bytes());
    assert_eq!(read(">=2 r7 (T & !n12) | <=2 r7 F"), expected);
    assert_eq!(read(">=2r7(T&!n12)|<=2r7F"), expected);
    assert_eq!(
        read("  ( >=2  r7 ((T) & ! n12) )|(<=2 r7 (F) )  "),
        expected
    );
}

#[test]
fn signs_bind_and_group() {
    for (bare, bracketed) in [
        ("!n1 & n2", "(!n1) & n2"),
        ("!n1 | n2", "(!n1) | n2"),
        (">=1 r2 n1 & n2", "(>=1 r2 n1) & n2"),
        ("<=1 r2 n1 | n2", "(<=1 r2 n1) | n2"),
        ("!>=1 r2 !n1", "!(>=1 r2 (!n1))"),
        ("n1 | n2 & n3", "n1 | (n2 & n3)"),
        ("n1 & n2 | n3", "(n1 & n2) | n3"),
        ("n1 & n2 & n3", "(n1 & n2) & n3"),
        ("n1 | n2 | n3", "(n1 | n2) | n3"),
        ("n1 | n2 & n3 | n4", "(n1 | (n2 & n3)) | n4"),
        ("n1 & n2 | n3 & n4", "(n1 & n2) | (n3 & n4)"),
    ] {
        let read_bare = read(bare);
        assert!(read_bare.is_ok(), "{bare}");
        assert_eq!(read_bare, read(bracketed), "{bare}");
    }
    assert_ne!(read("n1 & (n2 & n3)"), read("n1 & n2 & n3"));
    assert_ne!(read("n1 | (n2 | n3)"), read("n1 | n2 | n3"));
    assert_ne!(read("!(n1 & n2)"), read("!n1 & n2"));
}

#[test]
fn outside_the_grammar() {
    for text in [
        "",
        " ",
        "n",
        "n 12",
        "r7",
        "r 7",
        ">=2",
        ">=2 r7",
        ">= 2 r7 T",
        "> =2 r7 T",
        ">=2 r 7 T",
        ">=2 T",
        "r7 T",
        ">2 r7 T",
        "=2 r7 T",
        ">=2 (r7) T",
        ">=2 r7 & T",
        "n01",
        "n00",
        "n0256",
        ">=01 r7 T",
        ">=1 r00 T",
        "T F",
        "TT",
        "n1n2",
        "n1 2",
        "T!",
        "T!F",
        "T &",
        "& T",
        "T && T",
        "T & | T",
        "()",
        "(T",
        "T)",
        ")T(",
        "(T))",
        "(T)(T)",
        "(T)T",
        "T(T)",
        "!",
        "!!",
        "t",
        "N1",
        "n-1",
        "n+1",
        "n1,",
        "T\n",
        "\tT",
        "T\0",
        "n1\u{a0}",
        "[T]",
    ] {
        assert_eq!(read(text), Err(Fault::TextGrammar), "{text:?}");
    }
    assert_eq!(read([b'T', 255]), Err(Fault::TextGrammar));
}

#[test]
fn the_limits() {
    let spaced = |text: &str, length: usize| format!("{text:length$}");
    for (text, accepted) in [
        ("n255".into(), true),
        ("n256".into(), false),
        (">=255 r255 T".into(), true),
        (">=256 r255 T".into(), false),
        (">=255 r256 T".into(), false),
        ("n".to_string() + &"9".repeat(1023), false),
        (spaced("T", 1024), true),
        (spaced("T", 1025), false),
        ("(".repeat(511) + "n1" + &")".repeat(511), true),
        ("(".repeat(512) + "T" + &")".repeat(512), false),
        ("!".repeat(63) + "T", true),
        ("!".repeat(64) + "T", false),
        (["n1"; 32].join("&"), true),
        (["n1"; 33].join("&"), false),
    ] {
        let expected = if accepted {
            None
        } else {
            Some(Fault::TextLimit)
        };
        assert_eq!(read(&text).err(), expected, "{text}");
    }
}

#[test]
fn the_order_of_the_refusals() {
    let long = "n256".to_string() + &" ".repeat(2000);
    let mut table = [7; 12];
    for (text, lent, refused) in [
        (long.clone() + "&", 0, Fault::TextGrammar),
        (long, 0, Fault::TextLimit),
        ("n256 & T".into(), 0, Fault::TextLimit),
        ("n255 & T".into(), 0, Fault::Space),
        ("n255 & T".into(), 11, Fault::Space),
    ] {
        assert_eq!(hurnavis::read_text(&text, &mut table[..lent]), Err(refused));
        assert_eq!(text::read(text.as_bytes(), lent), Err(refused));
    }
    assert_eq!(table, [7; 12]);
    assert_eq!(hurnavis::read_text("n255 & T", &mut table), Ok(3));
}

/// Whatever up to four bytes can say.
#[test]
fn every_short_text() {
    let alphabet = b"TFnr!&|<>=() 012\t";
    let mut texts: Vec<Vec<u8>> = vec![Vec::new()];
    for _ in 0..4 {
        texts.iter().for_each(|text| drop(read(text)));
        let longer = |text: &Vec<u8>| alphabet.map(|byte| [&text[..], &[byte]].concat());
        texts = texts.iter().flat_map(longer).collect();
    }
    texts.iter().for_each(|text| drop(read(text)));
    assert!(texts.iter().filter(|text| read(text).is_ok()).count() > 100);
}

/// Entries drawn one by one, mostly of the last ones before, so that parts are shared.
fn shared(random: &mut Xorshift) -> Vec<Entry> {
    let mut entries = Vec::new();
    for number in 0..random.between(1, 40) {
        let part = |random: &mut Xorshift| number.saturating_sub(random.between(1, 3));
        let kind = match number {
            0 => FACT,
            _ => random.pick(&[0, 1, FACT, NOT, AND, AND, OR, OR, AT_LEAST, AT_MOST]),
        };
        let (first, second) = (part(random), part(random));
        let (name, grade) = (random.below(256), random.below(256));
        let used = |used: bool, value: usize| if used { value as u8 } else { 0 };
        entries.push(Entry {
            kind,
            name: used(kind == FACT || kind > OR, name),
            first: used(kind >= NOT, first),
            second: used(kind == AND || kind == OR, second),
            grade: used(kind > OR, grade),
        });
    }
    entries
}

/// The entry with its parts before it, each as often as it is used; stops when it is too long for a table.
fn unfold(entries: &[Entry], number: usize, unfolded: &mut Vec<Entry>) -> Option<u8> {
    let mut entry = entries[number];
    if entry.kind >= NOT {
        entry.first = unfold(entries, entry.first as usize, unfolded)?;
    }
    if entry.joins() {
        entry.second = unfold(entries, entry.second as usize, unfolded)?;
    }
    unfolded.push(entry);
    (unfolded.len() <= MOST_ENTRIES).then(|| unfolded.len() as u8 - 1)
}

#[test]
fn what_is_printed_is_read_again_without_sharing() {
    let (mut printed, mut too_long) = (0, 0);
    for input in 0..4000 {
        let mut random = Xorshift::new(1, input);
        let entries = shared(&mut random);
        let entry = entries.len() - 1;
        let mut unfolded = Vec::new();
        let fits = unfold(&entries, entry, &mut unfolded).is_some();
        match print_text(&layout::pack_table(&entries), entry) {
            Ok(text) => {
                assert_eq!(read(&text), Ok(layout::pack_table(&unfolded)), "{text}");
                needs_its_brackets(&text);
                printed += 1;
            }
            Err(fault) => {
                assert_eq!((fault, fits), (Fault::TextLimit, false));
                too_long += 1;
            }
        }
    }
    assert!(printed > 1000 && too_long > 100, "{printed} {too_long}");
}

/// Without any pair of its brackets the text is another.
fn needs_its_brackets(text: &str) {
    let mut open = Vec::new();
    for (at, sign) in text.char_indices() {
        match sign {
            '(' => open.push(at),
            ')' => {
                let mut bare = text.to_string();
                bare.replace_range(at..=at, " ");
                let from = open.pop().expect("an open bracket");
                bare.replace_range(from..=from, " ");
                assert_ne!(read(&bare), read(text), "{text}");
            }
            _ => (),
        }
    }
}
