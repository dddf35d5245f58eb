//! Which answers the counting entries of one relation can have together at a world.
//!
//! A successor adds 1 to the count of each part that holds at it. Counts above the greatest threshold of a part answer
//! alike, so they stop there, and the reachable counts are finitely many: start with no successor, and add successors
//! of each sort, any number of times. Adding with a stop does not depend on the order, so one sort after the other
//! reaches everything.

use std::collections::BTreeMap;

/// One counting entry, as a threshold: it answers whether the part's count is at least `from`, or the contrary.
#[derive(Clone, Copy, Debug)]
pub struct Threshold {
    /// The part that is counted, as a bit of the sorts.
    pub part: u64,
    pub from: usize,
    /// Whether the entry holds from the threshold on ("at least"), or below it ("at most").
    pub upwards: bool,
    /// The entry, as a bit of the answers.
    pub entry: u64,
}

/// The possible answers, as sets of entries that hold, where a successor may be of each of the sorts (sets of parts
/// that hold at it). `None` if it takes more than `work` steps.
pub fn answers(thresholds: &[Threshold], sorts: &[u64], work: usize) -> Option<Vec<u64>> {
    let counters = counters(thresholds, sorts);
    let adds = additions(&counters, sorts);
    let states = states(&counters)?;
    if states.checked_mul(adds.len() + 1)? > work {
        return None;
    }
    let reached = reach(&counters, &adds, states);
    Some(collect(&counters, &reached))
}

/// One count. Parts that hold at the same sorts of successors have the same count and share a counter.
struct Counter {
    /// One of its parts.
    part: u64,
    /// Where it stops.
    stop: usize,
    /// The entries that hold, for each count from 0 to the stop.
    holds: Vec<u64>,
}

fn counters(thresholds: &[Threshold], sorts: &[u64]) -> Vec<Counter> {
    let mut by_column: BTreeMap<Vec<bool>, Vec<Threshold>> = BTreeMap::new();
    for t in thresholds {
        let column: Vec<bool> = sorts.iter().map(|s| s & t.part != 0).collect();
        by_column.entry(column).or_default().push(*t);
    }
    by_column
        .into_iter()
        .map(|(column, same)| counter(&same, column.contains(&true)))
        .collect()
}

/// The counter of these thresholds; it stays at 0 if no sort of successor moves it.
fn counter(thresholds: &[Threshold], moves: bool) -> Counter {
    let greatest = thresholds.iter().map(|t| t.from).max().unwrap_or(0);
    let stop = if moves { greatest } else { 0 };
    let holds = (0..=stop)
        .map(|count| {
            thresholds
                .iter()
                .filter(|t| (count >= t.from) == t.upwards)
                .fold(0, |all, t| all | t.entry)
        })
        .collect();
    Counter {
        part: thresholds[0].part,
        stop,
        holds,
    }
}

/// For each sort of successor the counters that it moves, as a bit set of counters; each once, none empty.
fn additions(counters: &[Counter], sorts: &[u64]) -> Vec<u64> {
    let mut adds: Vec<u64> = sorts
        .iter()
        .map(|sort| {
            let moved = counters.iter().enumerate();
            moved
                .filter(|(_, c)| sort & c.part != 0)
                .fold(0, |all, (i, _)| all | 1 << i)
        })
        .filter(|add| *add != 0)
        .collect();
    adds.sort_unstable();
    adds.dedup();
    adds
}

/// The number of tuples of counts, if it is a number.
fn states(counters: &[Counter]) -> Option<usize> {
    counters
        .iter()
        .try_fold(1usize, |all, c| all.checked_mul(c.stop + 1))
}

/// Whether each tuple of counts can be reached. A tuple's number has the first counter as its fastest digit, so adding
/// a successor never makes it smaller, and one upward pass per sort adds any number of its successors.
fn reach(counters: &[Counter], adds: &[u64], states: usize) -> Vec<bool> {
    let mut reached = vec![false; states];
    reached[0] = true;
    for add in adds {
        let mut digits = vec![0; counters.len()];
        for state in 0..states {
            if reached[state] {
                reached[state + step(counters, &digits, *add)] = true;
            }
            advance(counters, &mut digits);
        }
    }
    reached
}

/// How far the addition moves the number of the tuple with these digits.
fn step(counters: &[Counter], digits: &[usize], add: u64) -> usize {
    let mut weight = 1;
    let mut step = 0;
    for (i, c) in counters.iter().enumerate() {
        if add >> i & 1 == 1 && digits[i] < c.stop {
            step += weight;
        }
        weight *= c.stop + 1;
    }
    step
}

/// The digits of the next tuple.
fn advance(counters: &[Counter], digits: &mut [usize]) {
    for (digit, c) in digits.iter_mut().zip(counters) {
        if *digit < c.stop {
            *digit += 1;
            return;
        }
        *digit = 0;
    }
}

/// The answers of the reached tuples, each once.
fn collect(counters: &[Counter], reached: &[bool]) -> Vec<u64> {
    let mut answers: Vec<u64> = Vec::new();
    let mut digits = vec![0; counters.len()];
    for reached in reached {
        if *reached {
            let digits = digits.iter().zip(counters);
            let answer = digits.fold(0, |all, (digit, c)| all | c.holds[*digit]);
            // Neighbouring tuples mostly answer alike, so few repetitions are kept until the end.
            if answers.last() != Some(&answer) {
                answers.push(answer);
            }
        }
        advance(counters, &mut digits);
    }
    answers.sort_unstable();
    answers.dedup();
    answers
}

#[cfg(test)]
mod tests {
    use super::*;

    fn at_least(part: u64, from: usize, entry: u64) -> Threshold {
        Threshold {
            part,
            from,
            upwards: true,
            entry,
        }
    }

    #[test]
    fn one_part_has_every_count() {
        // At least 2 (entry 1), at least 3 (entry 2): never the second alone.
        let thresholds = [at_least(1, 2, 1), at_least(1, 3, 2)];
        assert_eq!(answers(&thresholds, &[0, 1], 100), Some(vec![0, 1, 3]));
    }

    #[test]
    fn a_part_that_no_successor_has_counts_0() {
        let thresholds = [at_least(1, 0, 1), at_least(2, 1, 2)];
        assert_eq!(answers(&thresholds, &[0, 1], 100), Some(vec![1]));
    }

    #[test]
    fn parts_that_always_hold_together_count_together() {
        let thresholds = [at_least(1, 2, 1), at_least(2, 2, 2)];
        assert_eq!(answers(&thresholds, &[0, 3], 100), Some(vec![0, 3]));
    }

    #[test]
    fn too_much_work_is_given_up() {
        assert_eq!(answers(&[at_least(1, 200, 1)], &[0, 1], 100), None);
    }
}
