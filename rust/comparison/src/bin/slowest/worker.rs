//! Times of single decisions, taken in a process of its own: a call cannot be interrupted, a process can be ended.

use hurnavis::{decide, work_words};
use std::io::{self, BufRead, BufReader, Write};
use std::process::{Child, ChildStdin, Command, Stdio};
use std::sync::mpsc::{self, Receiver, RecvTimeoutError};
use std::thread;
use std::time::{Duration, Instant};

/// The first argument of the process that measures.
pub const FLAG: &str = "--worker";

/// The quickest of so many calls counts, unless the first takes long.
const CALLS: usize = 3;
const LONG: Duration = Duration::from_millis(20);

/// An answer and the time that it took.
#[derive(Clone, Copy, Debug)]
pub struct Timed {
    pub satisfiable: bool,
    pub time: Duration,
}

pub struct Worker {
    child: Child,
    questions: ChildStdin,
    answers: Receiver<String>,
}

impl Worker {
    pub fn start() -> Worker {
        let program = std::env::current_exe().expect("the path of this program");
        let mut child = Command::new(program)
            .arg(FLAG)
            .stdin(Stdio::piped())
            .stdout(Stdio::piped())
            .spawn()
            .expect("a second process");
        let questions = child.stdin.take().expect("its input");
        let output = BufReader::new(child.stdout.take().expect("its output"));
        let (send, answers) = mpsc::channel();
        thread::spawn(move || {
            for line in output.lines().map_while(Result::ok) {
                if send.send(line).is_err() {
                    break;
                }
            }
        });
        Worker {
            child,
            questions,
            answers,
        }
    }

    /// The decision of the table's entry, or nothing if it takes longer than the limit; then the process is another one.
    pub fn decide(&mut self, table: &[u8], entry: usize, limit: Duration) -> Option<Timed> {
        writeln!(self.questions, "{entry} {}", hex(table)).expect("the process listens");
        // The few calls for a quick time are no part of the limit.
        match self.answers.recv_timeout(limit + CALLS as u32 * LONG) {
            Ok(line) => Some(read(&line).expect("a time and an answer")).filter(|t| t.time < limit),
            Err(RecvTimeoutError::Disconnected) => panic!("the process failed on {}", hex(table)),
            Err(RecvTimeoutError::Timeout) => {
                self.end();
                *self = Worker::start();
                None
            }
        }
    }

    fn end(&mut self) {
        // It may have ended by itself; either way it is waited for.
        let _ = self.child.kill();
        let _ = self.child.wait();
    }
}

impl Drop for Worker {
    fn drop(&mut self) {
        self.end();
    }
}

fn read(line: &str) -> Option<Timed> {
    let (nanos, answer) = line.split_once(' ')?;
    Some(Timed {
        satisfiable: answer == "1",
        time: Duration::from_nanos(nanos.parse().ok()?),
    })
}

/// The process that measures: an entry and a table on each line.
pub fn work() {
    let mut words = Vec::new();
    for line in io::stdin().lines().map_while(Result::ok) {
        let (entry, table) = line.split_once(' ').expect("an entry and a table");
        let entry: usize = entry.parse().expect("an entry");
        let timed = timed(&bytes(table).expect("a table"), entry, &mut words);
        println!("{} {}", timed.time.as_nanos(), timed.satisfiable as u8);
        io::stdout().flush().expect("the output is open");
    }
}

/// The words are all 0 before and after.
fn timed(table: &[u8], entry: usize, words: &mut Vec<u64>) -> Timed {
    let needed = work_words(table, entry, entry).expect("an accepted table");
    if words.len() < needed {
        words.resize(needed, 0);
    }
    let mut call = || {
        let started = Instant::now();
        let decided = decide(table, entry, &mut words[..needed]);
        let time = started.elapsed();
        (decided.expect("an accepted table"), time)
    };
    let (satisfiable, mut time) = call();
    for _ in 1..CALLS {
        if time < LONG {
            time = time.min(call().1);
        }
    }
    Timed { satisfiable, time }
}

pub fn hex(bytes: &[u8]) -> String {
    bytes.iter().map(|b| format!("{b:02x}")).collect()
}

pub fn bytes(hex: &str) -> Option<Vec<u8>> {
    let pairs = (0..hex.len()).step_by(2).map(|i| hex.get(i..i + 2));
    pairs
        .map(|pair| u8::from_str_radix(pair?, 16).ok())
        .collect()
}
