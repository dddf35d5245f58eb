//! Ends the run, with the input's number, when a call does not come back: a call cannot be interrupted.

use super::again;
use std::sync::atomic::{AtomicU64, Ordering};
use std::sync::Arc;
use std::thread;
use std::time::Duration;

/// How long one input may take, in looks one second apart.
const LOOKS: u32 = 30;

pub struct Watch {
    current: Arc<AtomicU64>,
}

impl Watch {
    pub fn start(seed: u64, show: fn(u64, u64)) -> Watch {
        let current = Arc::new(AtomicU64::new(u64::MAX));
        let watched = current.clone();
        thread::spawn(move || watch(seed, show, &watched));
        Watch { current }
    }

    /// The input that runs from now on.
    pub fn begins(&self, number: u64) {
        self.current.store(number, Ordering::Relaxed);
    }
}

fn watch(seed: u64, show: fn(u64, u64), current: &AtomicU64) {
    let mut last = u64::MAX;
    let mut looks = 0;
    loop {
        thread::sleep(Duration::from_secs(1));
        let now = current.load(Ordering::Relaxed);
        looks = if now == last { looks + 1 } else { 0 };
        last = now;
        if looks >= LOOKS {
            println!("does not come back: {}", again(seed, now));
            show(seed, now);
            std::process::exit(2);
        }
    }
}
