//! How much was compared.

use std::fmt;

/// What was compared under a release.
#[derive(Clone, Copy, Default)]
pub struct Compared {
    /// Calls of the library.
    pub calls: u64,
    /// Questions put to both composers.
    pub questions: u64,
    /// Tables of all records.
    pub tables: u64,
    /// Questions for what is selected.
    pub chosen: u64,
    /// Quotes.
    pub quotes: u64,
    /// Repacks.
    pub repacks: u64,
}

impl Compared {
    /// All of them.
    pub fn counts(&self) -> [u64; 6] {
        [
            self.calls,
            self.questions,
            self.tables,
            self.chosen,
            self.quotes,
            self.repacks,
        ]
    }

    /// Adds those of another part of the run.
    pub fn join(&mut self, other: &Compared) {
        self.calls += other.calls;
        self.questions += other.questions;
        self.tables += other.tables;
        self.chosen += other.chosen;
        self.quotes += other.quotes;
        self.repacks += other.repacks;
    }
}

impl fmt::Display for Compared {
    fn fmt(&self, f: &mut fmt::Formatter<'_>) -> fmt::Result {
        let [calls, questions, tables, chosen, quotes, repacks] = self.counts();
        write!(
            f,
            "{questions} questions to both composers, {chosen} for what is selected, \
             {tables} tables of all records, {quotes} quotes, {repacks} repacks, \
             {calls} calls of the library in all"
        )
    }
}

/// Metadata, and those that declare a container.
#[derive(Default)]
pub struct Declared {
    /// All of them.
    pub all: u64,
    /// Those that declare one.
    pub declaring: u64,
}

impl Declared {
    /// One more.
    pub fn note(&mut self, declares: bool) {
        self.all += 1;
        self.declaring += u64::from(declares);
    }

    /// Adds those of another part of the run.
    pub fn join(&mut self, other: &Declared) {
        self.all += other.all;
        self.declaring += other.declaring;
    }
}

impl fmt::Display for Declared {
    fn fmt(&self, f: &mut fmt::Formatter<'_>) -> fmt::Result {
        let share = 100.0 * self.declaring as f64 / self.all.max(1) as f64;
        let (all, declaring) = (self.all, self.declaring);
        write!(
            f,
            "{all}, of which {declaring} declare a container ({share:.0} %)"
        )
    }
}

/// Settings, and those that are sound.
#[derive(Default)]
pub struct Sounded {
    /// All of them.
    pub all: u64,
    /// Those that are sound.
    pub sound: u64,
}

impl Sounded {
    /// One more.
    pub fn note(&mut self, is_sound: bool) {
        self.all += 1;
        self.sound += u64::from(is_sound);
    }

    /// Adds those of another part of the run.
    pub fn join(&mut self, other: &Sounded) {
        self.all += other.all;
        self.sound += other.sound;
    }
}

impl fmt::Display for Sounded {
    fn fmt(&self, f: &mut fmt::Formatter<'_>) -> fmt::Result {
        let (all, sound) = (self.all, self.sound);
        write!(f, "{all}, of which {sound} are sound")
    }
}
