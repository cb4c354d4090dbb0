//! Ends a test whose library call does not return, and says which history it was at.

use std::{
    process,
    sync::{
        atomic::{AtomicBool, AtomicU64, Ordering},
        Arc,
    },
    thread,
    time::Duration,
};

/// A history takes milliseconds; one that takes so long hangs.
const LIMIT: Duration = Duration::from_secs(3_600);

pub struct Watchdog {
    number: Arc<AtomicU64>,
    done: Arc<AtomicBool>,
}

impl Watchdog {
    pub fn new(test: &'static str, seed: u64) -> Watchdog {
        let watchdog = Watchdog { number: Arc::default(), done: Arc::default() };
        let (number, done) = (Arc::clone(&watchdog.number), Arc::clone(&watchdog.done));
        thread::spawn(move || loop {
            let before = number.load(Ordering::Relaxed);
            thread::sleep(LIMIT);
            if done.load(Ordering::Relaxed) {
                return;
            }
            if number.load(Ordering::Relaxed) == before {
                eprintln!("{test}, seed {seed}: a call of history {before} does not return");
                process::exit(101);
            }
        });
        watchdog
    }

    /// The history with this number begins.
    pub fn begin(&self, number: u64) {
        self.number.store(number, Ordering::Relaxed);
    }
}

impl Drop for Watchdog {
    fn drop(&mut self) {
        self.done.store(true, Ordering::Relaxed);
    }
}
