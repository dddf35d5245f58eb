//! The mark of a typed answer: `cargo run --example typed_mark -- '>=2 r7 n1' '>=3 r7 n1'` takes the model and the answer.

use hurnavis::{mark, work_words, Fault, Mark, Writer};
use std::env;

fn main() {
    let mut typed = env::args().skip(1);
    let model = typed.next().unwrap_or(">=2 r7 n1".into());
    let answer = typed.next().unwrap_or(">=2 r7 (n1 & n2)".into());
    match typed_mark(&model, &answer) {
        Ok(mark) => println!("the answer is {mark}"),
        Err(fault) => println!("{fault}"),
    }
}

fn typed_mark(model: &str, answer: &str) -> Result<Mark, Fault> {
    // A mark is of two entries of one table.
    let mut table = Writer::new();
    let model = table.text(model)?;
    let answer = table.text(answer)?;

    let table = table.bytes();
    let mut words = vec![0; work_words(&table, model, answer)?];
    mark(&table, model, answer, &mut words)
}
