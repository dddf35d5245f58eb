//! Takes away from a slow table what its slowness does not need.

use crate::change;
use crate::search::Meter;
use hurnavis_comparison::layout::Entry;
use std::time::{Duration, Instant};

/// The table with entries left out and grades lowered, as long as its decision passes the meter's limit, and as far as
/// one comes in this time.
pub fn shrunk(mut table: Vec<Entry>, time: Duration, meter: &mut Meter) -> Vec<Entry> {
    let started = Instant::now();
    let mut still_slow =
        |smaller: &[Entry]| started.elapsed() < time && meter.measured(smaller.to_vec()).is_over();
    loop {
        let before = table.clone();
        fewer(&mut table, &mut still_slow);
        lower(&mut table, &mut still_slow);
        if table == before {
            return table;
        }
    }
}

/// One entry less, for each that can go.
fn fewer(table: &mut Vec<Entry>, still_slow: &mut impl FnMut(&[Entry]) -> bool) {
    let mut left = table.len();
    while left > 0 {
        left -= 1;
        for second in [false, true] {
            let smaller =
                change::reachable(&change::without(table, left.min(table.len() - 1), second));
            if smaller.len() < table.len() && still_slow(&smaller) {
                *table = smaller;
            }
        }
    }
}

/// Grades lowered to 0, by half or by one.
fn lower(table: &mut [Entry], still_slow: &mut impl FnMut(&[Entry]) -> bool) {
    for i in 0..table.len() {
        let grade = table[i].grade;
        for less in [0, grade / 2, grade.saturating_sub(1)] {
            let mut smaller = table.to_vec();
            smaller[i].grade = less;
            if less < table[i].grade && still_slow(&smaller) {
                table[i].grade = less;
            }
        }
    }
}
