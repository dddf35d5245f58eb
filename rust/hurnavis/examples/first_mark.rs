//! A first mark: is an answer right, too narrow, too wide, or both? Run it with `cargo run --example first_mark`, then
//! change the two descriptions.

use hurnavis::{decide, mark, work_words, Fault, Mark, Writer};

// What the numbers stand for is yours to say: facts and relations go from 0 to 255.
const DOCTOR: u8 = 1;
const CHILD: u8 = 7;

fn main() {
    match first_mark() {
        Ok(mark) => println!("the answer is {mark}"),
        Err(fault) => println!("{fault}"),
    }
}

fn first_mark() -> Result<Mark, Fault> {
    // Each call writes one description and returns its number, by which others refer to it.
    let mut table = Writer::new();
    let doctor = table.fact(DOCTOR);
    let other = table.not(doctor);

    // The model: at least 2 children who are doctors, and at most 1 who is not.
    let two = table.at_least(2, CHILD, doctor);
    let few = table.at_most(1, CHILD, other);
    let model = table.and(two, few);

    // The answer: at least 3 children, at most 1 of them no doctor.
    let anybody = table.truth();
    let three = table.at_least(3, CHILD, anybody);
    let answer = table.and(three, few);

    // The calls work in words that are lent to them.
    let table = table.bytes();
    let mut words = vec![0; work_words(&table, model, answer)?];
    if !decide(&table, answer, &mut words)? {
        println!("nobody can be as the answer says");
    }
    mark(&table, model, answer, &mut words)
}
