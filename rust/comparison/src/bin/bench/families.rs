//! The measured families. Each has a size that grows up to what the format allows.
//!
//! A family stops at the first size that takes too long; only the family of slow inputs has no order and goes on.

use crate::case::Case;
use crate::{
    bounded, chains, colours, cycles, overlaps, parts, pigeons, planes, slow_inputs, worlds,
};

pub struct Family {
    pub name: &'static str,
    /// What the size is.
    pub size: &'static str,
    pub sizes: &'static [usize],
    pub case: fn(usize) -> Case,
    /// Whether a greater size is harder, so that nothing is expected behind one that takes too long.
    pub grows: bool,
}

/// A family that ends with the first size that takes too long.
pub const fn growing(
    name: &'static str,
    size: &'static str,
    sizes: &'static [usize],
    case: fn(usize) -> Case,
) -> Family {
    Family {
        name,
        size,
        sizes,
        case,
        grows: true,
    }
}

/// All families, in the order of the table.
pub fn all() -> impl Iterator<Item = &'static Family> {
    let groups = [
        worlds::BOARDS,
        overlaps::TYPED_TWICE,
        overlaps::OVERLAPS,
        cycles::CYCLES,
        planes::PLANES,
        pigeons::PIGEONS,
        parts::PARTS,
        bounded::BOUNDED,
        chains::CHAINS,
        worlds::CHOICES,
        colours::COLOURS,
        overlaps::MARKS,
        pigeons::MARKS,
        cycles::MARKS,
        slow_inputs::FOUND,
    ];
    groups.into_iter().flatten()
}

/// Every power of 2 that a grade can be, and the greatest grade.
pub const GRADES: &[usize] = &[1, 2, 4, 8, 16, 32, 64, 128, 255];
