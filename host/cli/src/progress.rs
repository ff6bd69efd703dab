//! How far a long run is, on a terminal's standard error and nowhere else.

use crate::streams;
use std::io::{IsTerminal, Write};
use std::sync::atomic::{AtomicU64, Ordering::SeqCst};
use std::sync::Mutex;
use std::time::{Duration, Instant};

/// A run that is shorter shows nothing.
const SHORT: Duration = Duration::from_secs(1);

/// How often the line is written anew.
const PAUSE: Duration = Duration::from_millis(200);

/// The progress of a run over so many windows.
pub struct Progress {
    windows: u64,
    done: AtomicU64,
    /// When the line is due next; nothing where standard error is no terminal.
    due: Option<Mutex<Instant>>,
    shown: AtomicU64,
}

impl Progress {
    /// At the start of a run.
    pub fn new(windows: u64) -> Progress {
        let due = || Mutex::new(Instant::now() + SHORT);
        Progress {
            windows,
            done: AtomicU64::new(0),
            due: std::io::stderr().is_terminal().then(due),
            shown: AtomicU64::new(0),
        }
    }

    /// One window more is done.
    pub fn step(&self) {
        let done = self.done.fetch_add(1, SeqCst) + 1;
        let Some(due) = &self.due else { return };
        // Another job that writes the line is enough.
        let Ok(mut due) = due.try_lock() else { return };
        if *due <= Instant::now() {
            *due = Instant::now() + PAUSE;
            self.shown.store(1, SeqCst);
            show(&format!("\r{done} of {} windows\x1b[K", self.windows));
        }
    }

    /// Removes the line.
    pub fn clear(&self) {
        if self.shown.load(SeqCst) != 0 {
            show("\r\x1b[K");
        }
    }
}

/// It is no matter whether this is seen.
fn show(text: &str) {
    if let Ok(mut error) = streams::error() {
        let _ = error.write_all(text.as_bytes());
    }
}
