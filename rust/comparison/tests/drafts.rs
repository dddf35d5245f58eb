//! Document 02's P9, drafts to return to, on the library and on the independent side.

use hurnavis::{check_table, entry, Fault};
use hurnavis_comparison::independent::draft::{self, Step, BYTES, MOST_NAMES, NOT_SAVED};

/// Where the number of entries stands, and behind it the saved lengths.
const COUNT: usize = 256;
const SAVED: usize = COUNT + 1;

/// A draft that both sides have, and agree on after each step.
#[derive(Clone)]
struct Both {
    library: hurnavis::Draft,
    independent: draft::Draft,
}

impl Both {
    fn fresh() -> Both {
        Both::of(*hurnavis::Draft::new().bytes())
    }

    fn of(bytes: [u8; BYTES]) -> Both {
        Both {
            library: hurnavis::Draft::from_bytes(bytes),
            independent: draft::Draft::of(&bytes),
        }
    }

    /// So many facts, named from 0 on.
    fn of_facts(count: u8) -> Both {
        let mut both = Both::fresh();
        (0..count).for_each(|name| assert_eq!(both.add(entry::fact(name)), Ok(())));
        both
    }

    fn add(&mut self, entry: u32) -> Result<(), Fault> {
        let library = self.library.add(entry);
        self.agree(Step::Add(entry), library)
    }

    fn save(&mut self, name: u8) -> Result<(), Fault> {
        let library = self.library.save(name);
        self.agree(Step::Save(name), library)
    }

    fn back(&mut self, name: u8) -> Result<(), Fault> {
        let library = self.library.back(name);
        self.agree(Step::Back(name), library)
    }

    fn agree(&mut self, step: Step, library: Result<(), Fault>) -> Result<(), Fault> {
        let before = self.independent.bytes().to_vec();
        assert_eq!(library, self.independent.step(step), "{step}");
        assert_eq!(self.bytes(), self.independent.bytes(), "{step}");
        if library.is_err() {
            assert_eq!(self.bytes()[..], before, "{step}");
        }
        library
    }

    fn bytes(&self) -> &[u8; BYTES] {
        self.library.bytes()
    }

    fn saved(&self, names: &[u8]) -> Vec<Option<usize>> {
        names.iter().map(|name| self.library.saved(*name)).collect()
    }

    /// Whether some steps give this draft. If none do, every step is refused, whatever it asks.
    fn is_given(&self) -> bool {
        let given = self.clone().save(0).is_ok();
        if !given {
            for refused in [0, 15, 16, 255] {
                assert_eq!(self.clone().save(refused), Err(Fault::Draft));
                assert_eq!(self.clone().back(refused), Err(Fault::Draft));
            }
            for entry in [entry::truth(), entry::not(0), u32::MAX] {
                assert_eq!(self.clone().add(entry), Err(Fault::Draft));
            }
        }
        given
    }
}

#[test]
fn a_fresh_draft_is_empty_with_no_name_saved() {
    let mut both = Both::fresh();
    assert_eq!(both.bytes()[..=COUNT], [0; SAVED]);
    assert_eq!(both.bytes()[SAVED..], [NOT_SAVED; MOST_NAMES]);
    for name in 0..=255 {
        assert_eq!(both.back(name), Err(Fault::Draft));
    }
    assert_eq!(check_table(both.library.table()), Err(Fault::TableLength));
}

#[test]
fn a_new_draft_is_made_of_any_bytes_of_its_length() {
    let fresh = *Both::fresh().bytes();
    for fill in [0, 1, 64, 255] {
        let mut bytes = [fill; BYTES];
        let mut independent = draft::Draft::of(&bytes);
        assert_eq!(hurnavis::raw::draft_new(&mut bytes), 0);
        assert_eq!(independent.step(Step::New), Ok(()));
        assert_eq!(bytes, fresh);
        assert_eq!(independent.bytes(), fresh);
    }
}

#[test]
fn an_empty_draft_may_be_saved() {
    let mut both = Both::fresh();
    assert_eq!(both.save(15), Ok(()));
    assert_eq!(both.add(entry::fact(1)), Ok(()));
    assert_eq!(both.back(15), Ok(()));
    assert_eq!(both.library.count(), 0);
    assert_eq!(both.back(15), Ok(()));
}

#[test]
fn saving_to_a_used_name_replaces_it() {
    let mut both = Both::of_facts(1);
    assert_eq!(both.save(3), Ok(()));
    assert_eq!(both.add(entry::fact(1)), Ok(()));
    assert_eq!(both.save(3), Ok(()));
    assert_eq!(both.add(entry::fact(2)), Ok(()));
    assert_eq!(both.back(3), Ok(()));
    assert_eq!(both.library.count(), 2);
}

#[test]
fn coming_back_restores_clears_and_forgets() {
    let mut both = Both::fresh();
    for (name, saved) in [(9, 1), (4, 2), (5, 2), (0, 3)] {
        while both.library.count() < saved {
            assert_eq!(both.add(entry::fact(255)), Ok(()));
        }
        assert_eq!(both.save(name), Ok(()));
    }
    let lengths = |both: &Both| both.saved(&[9, 4, 5, 0, 1]);
    assert_eq!(lengths(&both), [Some(1), Some(2), Some(2), Some(3), None]);
    assert_eq!(both.back(4), Ok(()));
    assert_eq!(lengths(&both), [Some(1), Some(2), Some(2), None, None]);
    assert_eq!(both.library.table(), [[0x2f, 0xf0, 0, 0]; 2].concat());
    assert_eq!(both.bytes()[8..COUNT], [0; COUNT - 8]);
    // The same entry once more does not bring the name back.
    assert_eq!(both.add(entry::fact(255)), Ok(()));
    assert_eq!(both.back(0), Err(Fault::Draft));
    assert_eq!(both.back(5), Ok(()));
    assert_eq!(both.back(9), Ok(()));
    assert_eq!(lengths(&both), [Some(1), None, None, None, None]);
}

#[test]
fn a_65th_entry_is_1_whatever_it_is() {
    let mut both = Both::of_facts(64);
    assert_eq!(check_table(both.library.table()), Ok(()));
    for entry in [entry::truth(), entry::not(63), 0x8000_0000, 1, u32::MAX] {
        assert_eq!(both.add(entry), Err(Fault::TableLength));
    }
    assert_eq!(both.save(0), Ok(()));
    assert_eq!(both.back(0), Ok(()));
    assert_eq!(both.library.count(), 64);
}

#[test]
fn a_bad_entry_is_2_3_or_4() {
    for count in [0, 1, 2, 62, 63] {
        let mut both = Both::of_facts(count);
        for kind in 8..16 {
            assert_eq!(both.add(kind << 28 | 0x0fff_ffff), Err(Fault::Kind));
        }
        // "Not" of itself with a grade: 3 comes before 4.
        let itself = entry::not(count.into());
        assert_eq!(both.add(itself | 1), Err(Fault::UnusedField));
        assert_eq!(both.add(itself), Err(Fault::Reference));
        assert_eq!(both.add(entry::or(0, 63)), Err(Fault::Reference));
        if count > 0 {
            let last = usize::from(count) - 1;
            assert_eq!(both.add(entry::or(0, last)), Ok(()));
        }
    }
}

#[test]
fn names_end_with_15() {
    let mut both = Both::of_facts(2);
    assert_eq!(both.save(15), Ok(()));
    for name in 16..=255 {
        assert_eq!(both.save(name), Err(Fault::Draft));
        assert_eq!(both.back(name), Err(Fault::Draft));
    }
    assert_eq!(both.back(15), Ok(()));
}

#[test]
fn every_number_of_entries_and_every_saved_length() {
    // True is 0, so that each number up to 64 is that of a draft.
    for number in 0..=255 {
        let mut bytes = *Both::fresh().bytes();
        bytes[COUNT] = number;
        assert_eq!(Both::of(bytes).is_given(), number <= 64, "{number}");
    }
    for count in [0, 1, 63, 64] {
        for length in 0..=255 {
            for name in [0, 15] {
                let mut bytes = *Both::of_facts(count).bytes();
                bytes[SAVED + name] = length;
                let given = length <= count || length == NOT_SAVED;
                assert_eq!(Both::of(bytes).is_given(), given, "{count} {length}");
            }
        }
    }
}

#[test]
fn every_byte_behind_the_entries_is_0() {
    for count in [0, 1, 62, 63, 64] {
        let draft = Both::of_facts(count);
        for at in 4 * usize::from(count)..COUNT {
            for bit in 0..8 {
                let mut bytes = *draft.bytes();
                bytes[at] = 1 << bit;
                assert!(!Both::of(bytes).is_given(), "{count} {at}");
            }
        }
    }
}

/// A draft of nots, of which each refers to the one before: any bit more is a kind over 7, a field that is not used, another kind
/// or another reference.
#[test]
fn every_bit_of_every_entry() {
    let mut both = Both::of_facts(1);
    (0..63).for_each(|part| assert_eq!(both.add(entry::not(part)), Ok(())));
    let mut given = 0;
    for bit in 0..8 * COUNT {
        let mut bytes = *both.bytes();
        bytes[bit / 8] ^= 0x80 >> (bit % 8);
        let accepted = check_table(&bytes[..COUNT]).is_ok();
        assert_eq!(Both::of(bytes).is_given(), accepted, "bit {bit}");
        given += accepted as usize;
    }
    assert!(given > 100, "{given}");
}

#[test]
fn other_lengths_are_no_drafts() {
    let good = Both::of_facts(3);
    for length in [0, 1, 256, 257, 272, 274, 529, 65_536, 65_809] {
        let mut bytes = good.bytes().to_vec();
        bytes.resize(length, NOT_SAVED);
        let before = bytes.clone();
        let draft = Fault::Draft.number();
        assert_eq!(hurnavis::raw::draft_new(&mut bytes), draft, "{length}");
        assert_eq!(hurnavis::raw::draft_add(&mut bytes, 0), draft, "{length}");
        assert_eq!(hurnavis::raw::draft_save(&mut bytes, 0), draft, "{length}");
        assert_eq!(hurnavis::raw::draft_back(&mut bytes, 0), draft, "{length}");
        assert_eq!(bytes, before);
        for step in [Step::New, Step::Add(0), Step::Save(0), Step::Back(0)] {
            let mut independent = draft::Draft::of(&bytes);
            assert_eq!(independent.step(step), Err(Fault::Draft));
            assert_eq!(independent.bytes(), before);
        }
    }
}
