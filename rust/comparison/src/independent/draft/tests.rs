use super::*;
use crate::xorshift::Xorshift;
use std::collections::HashMap;

/// A draft of few entries and names, so that every one can be tried.
type Small = History<3, 2>;

/// Good anywhere, good behind others only, and never good.
const WORDS: [u32; 7] = [
    0x0000_0000, // true, which looks like no entry
    0x2010_0000, // fact 1
    0x3000_0000, // not 0
    0x4000_4000, // 1 and 0
    0x3000_8000, // not 2
    0x8000_0000, // kind 8
    0x0000_0001, // true with a grade
];

/// Every step, refused ones too.
fn steps() -> Vec<Step> {
    let mut steps = vec![Step::New];
    steps.extend(WORDS.map(Step::Add));
    for name in [0, 1, 2, 255] {
        steps.extend([Step::Save(name), Step::Back(name)]);
    }
    steps
}

/// Whatever any sequence of steps gives, by its bytes. No two histories have the same.
fn every_history() -> HashMap<Vec<u8>, Small> {
    let mut found = HashMap::from([(Small::fresh().bytes(), Small::fresh())]);
    let mut new = vec![Small::fresh()];
    while let Some(history) = new.pop() {
        for step in steps() {
            let mut next = history.clone();
            if next.step(step).is_err() {
                assert_eq!(next, history);
                continue;
            }
            match found.insert(next.bytes(), next.clone()) {
                Some(same) => assert_eq!(same, next),
                None => new.push(next),
            }
        }
    }
    found
}

/// Every draft of these entries, with these numbers as its number of entries and as saved lengths.
fn every_draft(numbers: &[u8]) -> Vec<Vec<u8>> {
    let words: Vec<Vec<u8>> = WORDS.iter().map(|w| w.to_be_bytes().to_vec()).collect();
    let numbers: Vec<Vec<u8>> = numbers.iter().map(|n| vec![*n]).collect();
    let parts = [&words, &words, &words, &numbers, &numbers, &numbers];
    parts.iter().fold(vec![Vec::new()], |starts, ends| {
        let with_each =
            |start: &Vec<u8>| ends.iter().map(|end| [&start[..], end].concat()).collect();
        starts
            .iter()
            .flat_map::<Vec<Vec<u8>>, _>(with_each)
            .collect()
    })
}

#[test]
fn drafts_are_those_that_some_steps_give() {
    let found = every_history();
    // 1 draft of no entries, 2 of one, 2 x 3 of two, 2 x 3 x 4 of three; each name is saved with as many or fewer, or not.
    assert_eq!(found.len(), 4 + 2 * 9 + 6 * 16 + 24 * 25);
    let mut given = 0;
    for bytes in every_draft(&[0, 1, 2, 3, 4, 64, 254, 255]) {
        let expected = found.get(&bytes);
        assert_eq!(Small::giving(&bytes).as_ref(), expected, "{bytes:?}");
        assert_eq!(
            plain::given::<3, 2>(&bytes),
            expected.is_some(),
            "{bytes:?}"
        );
        given += expected.is_some() as usize;
    }
    assert_eq!(given, found.len());
}

#[test]
fn no_draft_has_another_length() {
    let fresh = <History>::fresh().bytes();
    assert_eq!(fresh.len(), BYTES);
    for length in (0..2 * BYTES).filter(|length| *length != BYTES) {
        let mut bytes = fresh.clone();
        bytes.resize(length, NOT_SAVED);
        for step in [Step::New, Step::Add(0), Step::Save(0), Step::Back(0)] {
            let before = bytes.clone();
            assert_eq!(Draft::of(&bytes).step(step), Err(Fault::Draft));
            assert_eq!(plain::step(&mut bytes, step), Err(Fault::Draft));
            assert_eq!(bytes, before);
        }
    }
}

#[test]
fn the_bytes_go_with_the_history() {
    for input in 0..200 {
        let mut random = Xorshift::new(1, input);
        let mut draft = Draft::of(&<History>::fresh().bytes());
        let mut bytes = draft.bytes().to_vec();
        for _ in 0..200 {
            let name = random.below(18) as u8;
            let step = match random.below(10) {
                0..=6 => Step::Add(random.pick(&WORDS)),
                7..=8 => Step::Save(name),
                _ => Step::Back(name),
            };
            assert_eq!(plain::step(&mut bytes, step), draft.step(step), "{step}");
            assert_eq!(bytes, draft.bytes());
            let history = History::giving(&bytes);
            assert_eq!(history.as_ref(), draft.history());
        }
    }
}
