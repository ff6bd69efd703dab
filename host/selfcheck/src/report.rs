//! What a run found.

use generate::ask::{ask_clauses, ask_freedoms, REQUEST_CLAUSES};
use generate::damage::{clauses, EXTERNAL_CLAUSE};
use generate::{
    freedoms, metadata_names, settings_clauses, settings_freedoms, Tally, LIMITS, LISTING_CLAUSES,
    REPACK_CLAUSES, REPACK_LIMITS, VERDICTS,
};
use std::fmt;

/// A run prints so many differences and counts the rest.
const MOST_PRINTED: usize = 20;

/// The names of what a composed plane may show.
pub const OUTCOMES: [&str; 9] = [
    "answered",
    "refused",
    "no pixel covered",
    "some pixels covered",
    "all pixels covered",
    "the plain composer stores more than the quick one",
    "masks change the plane",
    "cut in two halves",
    "the same of a file cut to one layer",
];

/// Counts and differences.
pub struct Report {
    /// The seed of the file at hand.
    pub seed: u64,
    /// Files made, bytes in them.
    pub files: u64,
    pub bytes: u64,
    /// Files with two damages at once, and with damage of any kind.
    pub pairs: u64,
    pub scrambled: u64,
    /// Metadata by themselves, and those that declare a container.
    pub metadata: u64,
    pub declared: u64,
    /// Settings by themselves, and quotes that are answered.
    pub settings: u64,
    pub quotes: u64,
    /// Sound files that were repacked.
    pub repacks: u64,
    pub freedoms: Tally,
    pub metadata_names: Tally,
    pub limits: Tally,
    pub verdicts: Tally,
    pub ask_freedoms: Tally,
    pub outcomes: Tally,
    pub settings_freedoms: Tally,
    pub clauses: Tally,
    differences: Vec<String>,
    untold: u64,
}

impl Report {
    /// All counts at 0.
    pub fn new() -> Report {
        let of_files = clauses().into_iter().map(|c| c.name);
        let of_questions = ask_clauses().iter().map(|c| c.name);
        let of_requests = REQUEST_CLAUSES.iter().map(|c| c.name);
        let of_listing = LISTING_CLAUSES.iter().map(|c| c.name);
        let all = of_files
            .chain(of_questions)
            .chain(of_requests)
            .chain(of_listing)
            .chain(settings_clauses())
            .chain(REPACK_CLAUSES.iter().map(|c| c.name));
        let limits = LIMITS.iter().chain(REPACK_LIMITS).map(|l| l.name);
        Report {
            seed: 0,
            files: 0,
            bytes: 0,
            pairs: 0,
            scrambled: 0,
            metadata: 0,
            declared: 0,
            settings: 0,
            quotes: 0,
            repacks: 0,
            freedoms: Tally::new("Files that take a freedom", freedoms()),
            metadata_names: Tally::new("Metadata by what they hold", metadata_names()),
            limits: Tally::new("Files at a limit", limits),
            verdicts: Tally::new("Damaged files by what both releases say", VERDICTS),
            ask_freedoms: Tally::new("Questions that take a freedom", ask_freedoms()),
            outcomes: Tally::new("Questions by what came of them", OUTCOMES),
            settings_freedoms: Tally::new("Settings that take a freedom", settings_freedoms()),
            clauses: Tally::new("Refusals by clause", all).with_external(EXTERNAL_CLAUSE),
            differences: Vec::new(),
            untold: 0,
        }
    }

    /// Notes a difference of the file at hand.
    pub fn differs(&mut self, what: impl fmt::Display) {
        if self.differences.len() < MOST_PRINTED {
            self.differences.push(format!("seed {}: {what}", self.seed));
        } else {
            self.untold += 1;
        }
    }

    /// Notes a difference unless both are equal.
    pub fn compare<T: PartialEq + fmt::Debug>(&mut self, what: &str, got: T, wanted: T) {
        if got != wanted {
            self.differs(format!("{what}: {got:?} instead of {wanted:?}"));
        }
    }

    fn tallies(&self) -> [&Tally; 8] {
        [
            &self.freedoms,
            &self.metadata_names,
            &self.limits,
            &self.verdicts,
            &self.ask_freedoms,
            &self.outcomes,
            &self.settings_freedoms,
            &self.clauses,
        ]
    }

    /// No difference, and every name reached.
    pub fn passed(&self) -> bool {
        let all_reached = self.tallies().iter().all(|t| t.missing().is_empty());
        self.differences.is_empty() && all_reached
    }
}

impl fmt::Display for Report {
    fn fmt(&self, f: &mut fmt::Formatter<'_>) -> fmt::Result {
        for tally in self.tallies() {
            writeln!(f, "{tally}")?;
        }
        writeln!(f, "{} files, {} bytes in all", self.files, self.bytes)?;
        writeln!(f, "{} with two damages at once", self.pairs)?;
        writeln!(f, "{} with damage of any kind", self.scrambled)?;
        writeln!(
            f,
            "{} metadata, {} of them declare a container",
            self.metadata, self.declared
        )?;
        writeln!(
            f,
            "{} settings, {} quotes that are answered, {} repacks",
            self.settings, self.quotes, self.repacks
        )?;
        for name in self.tallies().iter().flat_map(|t| t.missing()) {
            writeln!(f, "NOT REACHED: {name}")?;
        }
        for difference in &self.differences {
            writeln!(f, "DIFFERENT: {difference}")?;
        }
        if self.untold > 0 {
            writeln!(f, "and {} more differences", self.untold)?;
        }
        Ok(())
    }
}
