//! Document 01's refusals 1 to 8, in its order, without 5, which document 02 takes out (P4). A link has no zero bits any more:
//! its last two bits are copies less 1 (P7).

use super::truth::Structure;
use crate::layout::{self, Entry};
use hurnavis::Fault;

/// The entries of a table, or its first fault: 1; then entry by entry 2, 3, 4.
pub fn table(bytes: &[u8]) -> Result<Vec<Entry>, Fault> {
    if bytes.is_empty() || bytes.len() > 256 || bytes.len() % 4 != 0 {
        return Err(Fault::TableLength);
    }
    let entries = layout::unpack_table(bytes);
    for (number, entry) in entries.iter().enumerate() {
        check_entry(number, *entry)?;
    }
    Ok(entries)
}

/// The fields that a kind uses, as document 01's table of kinds lists them.
struct Used {
    name: bool,
    first: bool,
    second: bool,
    grade: bool,
}

fn used(kind: u8) -> Option<Used> {
    let (name, first, second, grade) = match kind {
        layout::TRUE | layout::FALSE => (false, false, false, false),
        layout::FACT => (true, false, false, false),
        layout::NOT => (false, true, false, false),
        layout::AND | layout::OR => (false, true, true, false),
        layout::AT_LEAST | layout::AT_MOST => (true, true, false, true),
        _ => return None,
    };
    Some(Used {
        name,
        first,
        second,
        grade,
    })
}

/// An entry's first fault at the place with this number: 2, 3, 4.
pub fn check_entry(number: usize, e: Entry) -> Result<(), Fault> {
    let Some(used) = used(e.kind) else {
        return Err(Fault::Kind);
    };
    let fields = [
        (used.name, e.name),
        (used.first, e.first),
        (used.second, e.second),
        (used.grade, e.grade),
    ];
    if fields.iter().any(|(used, value)| !used && *value != 0) {
        return Err(Fault::UnusedField);
    }
    let references = [(used.first, e.first), (used.second, e.second)];
    if references
        .iter()
        .any(|(used, to)| *used && *to as usize >= number)
    {
        return Err(Fault::Reference);
    }
    Ok(())
}

/// The structure of its bytes, or its first fault: 6; then record by record 7, 8.
pub fn structure(bytes: &[u8]) -> Result<Structure, Fault> {
    if bytes.is_empty() || bytes.len() > 3072 || bytes.len() % 3 != 0 {
        return Err(Fault::StructureLength);
    }
    let mut records = bytes
        .chunks_exact(3)
        .map(|b| (b[0] as u32) << 16 | (b[1] as u32) << 8 | b[2] as u32);
    let header = records.next().expect("the length is not 0");
    if header >> 22 != 0 || header & 0xffff != 0 {
        return Err(Fault::Record);
    }
    let mut structure = Structure::new((header >> 16) as usize + 1);
    for record in records {
        read(record, &mut structure)?;
    }
    Ok(structure)
}

/// Adds what a record behind the header states.
fn read(record: u32, structure: &mut Structure) -> Result<(), Fault> {
    let world = (record >> 16 & 63) as usize;
    let name = (record >> 8 & 255) as u8;
    let to = (record >> 2 & 63) as usize;
    match record >> 22 {
        1 if record & 255 == 0 => {
            if world >= structure.worlds() {
                return Err(Fault::World);
            }
            structure.state(world, name);
        }
        2 => {
            if world >= structure.worlds() || to >= structure.worlds() {
                return Err(Fault::World);
            }
            structure.link(world, name, to, (record & 3) + 1);
        }
        _ => return Err(Fault::Record),
    }
    Ok(())
}

#[cfg(test)]
mod tests {
    use super::*;

    #[test]
    fn the_first_fault_counts() {
        assert_eq!(table(&[]), Err(Fault::TableLength));
        assert_eq!(table(&[0; 3]), Err(Fault::TableLength));
        assert_eq!(table(&[0; 260]), Err(Fault::TableLength));
        // Kind 8 with every field set: 2 comes before 3 and 4.
        assert_eq!(table(&[0x8f, 0xff, 0xff, 0xff]), Err(Fault::Kind));
        // "Not" of itself with a grade: 3 comes before 4.
        assert_eq!(table(&[0x30, 0, 0, 1]), Err(Fault::UnusedField));
        assert_eq!(table(&[0x30, 0, 0, 0]), Err(Fault::Reference));
        // Entry 0 with fault 4 comes before entry 1 with fault 2.
        let bytes = [0x30, 0, 0, 0, 0x80, 0, 0, 0];
        assert_eq!(table(&bytes), Err(Fault::Reference));
    }

    #[test]
    fn records_are_checked_in_order() {
        let refused = |bytes: &[u8]| structure(bytes).map(|s| s.worlds());
        assert_eq!(refused(&[]), Err(Fault::StructureLength));
        assert_eq!(refused(&[0, 0]), Err(Fault::StructureLength));
        assert_eq!(refused(&[0x41, 0, 0]), Err(Fault::Record));
        assert_eq!(refused(&[0, 0, 1]), Err(Fault::Record));
        assert_eq!(refused(&[0, 0, 0, 0, 0, 0]), Err(Fault::Record));
        // A fact at a world outside with a zero bit set: 7 comes before 8.
        assert_eq!(refused(&[0, 0, 0, 0x41, 0, 1]), Err(Fault::Record));
        assert_eq!(refused(&[0, 0, 0, 0x41, 0, 0]), Err(Fault::World));
        assert_eq!(refused(&[0, 0, 0, 0x80, 0, 4]), Err(Fault::World));
        assert_eq!(refused(&[0x3f, 0, 0]), Ok(64));
    }

    #[test]
    fn every_number_of_copies_is_taken() {
        for less_1 in 0..4 {
            let to = |world: u8| structure(&[0, 0, 0, 0x80, 0, world << 2 | less_1]);
            assert_eq!(to(0).map(|s| s.worlds()), Ok(1));
            assert_eq!(to(1).map(|s| s.worlds()), Err(Fault::World));
        }
    }
}
