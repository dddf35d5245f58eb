//! A table as a reader wants it: what the last entry joins by "and", a line each, nothing twice.

use hurnavis_comparison::layout::{Entry, AND, AT_LEAST, FACT, FALSE, NOT, OR, TRUE};

/// Longer formulas are cut.
const WIDTH: usize = 300;

pub fn lines(table: &[Entry]) -> Vec<String> {
    let mut lines = Vec::new();
    split(table, table.len() - 1, &mut lines);
    lines.sort();
    lines.dedup();
    lines
}

fn split(table: &[Entry], i: usize, lines: &mut Vec<String>) {
    let entry = table[i];
    if entry.kind == AND && lines.len() < table.len() {
        split(table, entry.first as usize, lines);
        split(table, entry.second as usize, lines);
        return;
    }
    let mut line = String::new();
    write(table, i, &mut line);
    if line.len() >= WIDTH {
        line.truncate(WIDTH);
        line.push_str(" ..");
    }
    lines.push(line);
}

fn write(table: &[Entry], i: usize, line: &mut String) {
    if line.len() > WIDTH {
        return;
    }
    let entry = table[i];
    let joined = |sign: &str, line: &mut String| {
        line.push('(');
        write(table, entry.first as usize, line);
        line.push_str(sign);
        write(table, entry.second as usize, line);
        line.push(')');
    };
    match entry.kind {
        TRUE => line.push_str("true"),
        FALSE => line.push_str("false"),
        FACT => line.push_str(&format!("p{}", entry.name)),
        NOT => {
            line.push_str("not ");
            write(table, entry.first as usize, line);
        }
        AND => joined(" and ", line),
        OR => joined(" or ", line),
        kind => {
            let bound = if kind == AT_LEAST { ">=" } else { "<=" };
            line.push_str(&format!("r{} {bound} {} ", entry.name, entry.grade));
            write(table, entry.first as usize, line);
        }
    }
}
