//! Small changes of a table that keep it accepted, and its last entry the one that is asked for.

use hurnavis_comparison::layout::{self, Entry, AND, AT_LEAST, AT_MOST, FACT, NOT, OR};
use hurnavis_comparison::xorshift::Xorshift;

/// The table after one to three changes; grades stay below the greatest one.
pub fn changed(random: &mut Xorshift, table: &[Entry], greatest: u8) -> Vec<Entry> {
    let mut table = table.to_vec();
    for _ in 0..random.pick(&[1, 1, 1, 2, 3]) {
        change(random, &mut table);
    }
    for entry in &mut table {
        entry.grade = entry.grade.min(greatest);
    }
    reachable(&table)
}

fn change(random: &mut Xorshift, table: &mut Vec<Entry>) {
    let i = random.below(table.len());
    match random.below(12) {
        0..=2 => grade(random, table),
        3 => kind(random, &mut table[i]),
        4 => name(random, table, i),
        5..=6 => reference(random, table, i),
        7 => exchange(random, table, i),
        8 => want(random, table),
        9 => insert(random, table, i),
        10 => copy(random, table, i),
        _ => *table = without(table, i, random.percent(50)),
    }
}

/// One more, one less, twice, half, that of another counting, or any.
fn grade(random: &mut Xorshift, table: &mut [Entry]) {
    let counting: Vec<usize> = (0..table.len()).filter(|i| table[*i].counts()).collect();
    if counting.is_empty() {
        return;
    }
    let (i, other) = (random.pick(&counting), random.pick(&counting));
    let grade = table[i].grade;
    table[i].grade = match random.below(8) {
        0..=1 => grade.saturating_add(1),
        2..=3 => grade.saturating_sub(1),
        4 => grade.saturating_mul(2),
        5 => grade / 2,
        6 => table[other].grade,
        _ => random.below(256) as u8,
    };
}

fn kind(random: &mut Xorshift, entry: &mut Entry) {
    match entry.kind {
        AT_LEAST => entry.kind = AT_MOST,
        AT_MOST => entry.kind = AT_LEAST,
        AND => entry.kind = OR,
        OR => entry.kind = AND,
        FACT => {}
        NOT => {}
        // A constant becomes the other one, or a fact.
        _ if random.percent(50) => entry.kind = 1 - entry.kind,
        _ => {
            entry.kind = FACT;
            entry.name = random.below(8) as u8;
        }
    }
}

/// The fact or relation of another entry, or a new one.
fn name(random: &mut Xorshift, table: &mut [Entry], i: usize) {
    let names = |kinds: fn(&Entry) -> bool, table: &[Entry]| -> Vec<u8> {
        table.iter().filter(|e| kinds(e)).map(|e| e.name).collect()
    };
    let used = match table[i].kind {
        FACT => names(|e| e.kind == FACT, table),
        AT_LEAST | AT_MOST => names(|e| e.counts(), table),
        _ => return,
    };
    table[i].name = if random.percent(90) {
        random.pick(&used)
    } else {
        random.below(12) as u8
    };
}

fn reference(random: &mut Xorshift, table: &mut [Entry], i: usize) {
    if table[i].joins() && random.percent(50) {
        table[i].second = random.below(i) as u8;
    } else if table[i].kind >= NOT {
        table[i].first = random.below(i) as u8;
    }
}

/// Two countings exchange what they count, or their grades.
fn exchange(random: &mut Xorshift, table: &mut [Entry], i: usize) {
    let j = random.below(table.len());
    let (early, late) = (i.min(j), i.max(j));
    let (one, other) = (table[early], table[late]);
    if early == late || !one.counts() || !other.counts() {
        return;
    }
    if random.percent(50) && (other.first as usize) < early {
        table[early].first = other.first;
        table[late].first = one.first;
    } else {
        table[early].grade = other.grade;
        table[late].grade = one.grade;
    }
}

/// One more counting is wanted, or one more choice between what is there.
fn want(random: &mut Xorshift, table: &mut Vec<Entry>) {
    if table.len() + 2 > layout::MOST_ENTRIES {
        return;
    }
    let last = table.len() as u8 - 1;
    let new = fresh(random, table, table.len());
    table.push(new);
    table.push(Entry {
        kind: random.pick(&[AND, AND, AND, OR]),
        name: 0,
        first: last,
        second: last + 1,
        grade: 0,
    });
}

/// A new entry before entry i, to which one later reference is turned.
fn insert(random: &mut Xorshift, table: &mut Vec<Entry>, i: usize) {
    if i > 0 {
        let new = fresh(random, table, i);
        put(random, table, i, new);
    }
}

/// Entry i once more before itself, so that what stood for one is now two.
fn copy(random: &mut Xorshift, table: &mut Vec<Entry>, i: usize) {
    let same = table[i];
    put(random, table, i, same);
}

fn put(random: &mut Xorshift, table: &mut Vec<Entry>, i: usize, new: Entry) {
    if table.len() == layout::MOST_ENTRIES {
        return;
    }
    for entry in &mut table[i..] {
        if entry.kind >= NOT && entry.first as usize >= i {
            entry.first += 1;
        }
        if entry.joins() && entry.second as usize >= i {
            entry.second += 1;
        }
    }
    table.insert(i, new);
    let later = random.between(i + 1, table.len() - 1);
    if table[later].joins() && random.percent(50) {
        table[later].second = i as u8;
    } else if table[later].kind >= NOT {
        table[later].first = i as u8;
    }
}

/// A random entry that refers to entries before entry i; there is one.
fn fresh(random: &mut Xorshift, table: &[Entry], i: usize) -> Entry {
    let kind = random.pick(&[FACT, NOT, AND, OR, AT_LEAST, AT_LEAST, AT_MOST, AT_MOST]);
    let like = table[random.below(table.len())];
    let counts = kind >= AT_LEAST;
    Entry {
        kind,
        name: match kind {
            FACT => random.below(8) as u8,
            AT_LEAST | AT_MOST if like.counts() => like.name,
            _ => 0,
        },
        first: if kind >= NOT {
            random.below(i) as u8
        } else {
            0
        },
        second: if kind == AND || kind == OR {
            random.below(i) as u8
        } else {
            0
        },
        grade: match counts {
            true if like.counts() => like.grade,
            true => random.below(5) as u8,
            false => 0,
        },
    }
}

/// The table without entry i. What referred to it refers to one of its parts, or to the entry before it.
pub fn without(table: &[Entry], i: usize, second: bool) -> Vec<Entry> {
    if table.len() == 1 {
        return table.to_vec();
    }
    let gone = table[i];
    let instead = match gone.kind {
        AND | OR if second => gone.second,
        kind if kind >= NOT => gone.first,
        _ => i.saturating_sub(1) as u8,
    };
    let moved = |reference: u8| match (reference as usize).cmp(&i) {
        std::cmp::Ordering::Less => reference,
        std::cmp::Ordering::Equal => instead,
        std::cmp::Ordering::Greater => reference - 1,
    };
    let mut rest = table.to_vec();
    rest.remove(i);
    for (number, entry) in rest.iter_mut().enumerate().skip(i) {
        if entry.kind >= NOT {
            entry.first = moved(entry.first);
        }
        if entry.joins() {
            entry.second = moved(entry.second);
        }
        // The first entry has nothing to refer to.
        if number == 0 && entry.kind >= NOT {
            *entry = Entry {
                kind: FACT,
                name: 0,
                first: 0,
                second: 0,
                grade: 0,
            };
        }
    }
    rest
}

/// The entries that the last one depends on, in their order.
pub fn reachable(table: &[Entry]) -> Vec<Entry> {
    let mut used = vec![false; table.len()];
    used[table.len() - 1] = true;
    for i in (0..table.len()).rev().filter(|i| table[*i].kind >= NOT) {
        used[table[i].first as usize] |= used[i];
        if table[i].joins() {
            used[table[i].second as usize] |= used[i];
        }
    }
    let mut number = vec![0u8; table.len()];
    let mut kept: Vec<Entry> = Vec::new();
    for i in (0..table.len()).filter(|i| used[*i]) {
        let mut entry = table[i];
        if entry.kind >= NOT {
            entry.first = number[entry.first as usize];
        }
        if entry.joins() {
            entry.second = number[entry.second as usize];
        }
        number[i] = kept.len() as u8;
        kept.push(entry);
    }
    kept
}
