//! What a run found.

use crate::case::Case;
use crate::counts::{Compared, Declared, Sounded};
use crate::layers::{CUT, FAR};
use crate::quoted::{ORDERS, QUOTED, SHEETS, SHEET_CLAUSE};
use crate::repacked::ALIKE;
use crate::repacks::{BUFFERS, BUFFER_CLAUSES, REPACKED, REPACK_ORDERS};
use generate::ask::{ask_clauses, ask_freedoms, REQUEST_CLAUSES};
use generate::damage::{clauses, EXTERNAL_CLAUSE};
use generate::{
    freedoms, metadata_names, settings_clauses, settings_freedoms, Tally, HUGE, LIMITS,
    LISTING_CLAUSES, REPACK_CLAUSES, REPACK_LIMITS, VERDICTS,
};
use reference::Release;
use std::fmt;

/// A run prints so many differences and counts the rest.
const MOST_PRINTED: usize = 20;

/// The names of what a composed plane may show.
const OUTCOMES: [&str; 13] = [
    "answered",
    "refused",
    "no pixel covered",
    "some pixels covered",
    "all pixels covered",
    "the plain composer stores more than the quick one",
    "cut in two halves",
    "buffers exactly long enough",
    "buffers longer than needed",
    "a buffer one byte short",
    "a question to a refused file",
    "two clauses at once",
    "a question to a file at a limit",
];

/// The names of how arrays and marks are lent.
const LENT: [&str; 10] = [
    "arrays exactly long enough",
    "arrays longer than needed",
    "no arrays",
    "numbers one too short",
    "starts one too short",
    "arrays for a refused file",
    "marks exactly long enough",
    "marks longer than needed",
    "marks one too short",
    "marks for a refused file",
];

/// The names of what is chosen.
const CHOICES: [&str; 6] = [
    "a selected tile meets the window",
    "tiles are selected, and none meets the window",
    "no tile is selected",
    "a side of 0, and tiles are selected",
    "a side over 65,536, and a tile meets the window",
    "an edge above 2^31 - 1, and a tile meets the window",
];

/// The names of two damages at once.
const PAIRS: [&str; 4] = [
    "no broken container",
    "a broken container before another fault",
    "a broken container behind another fault",
    "two broken containers, or one twice",
];

/// The names of what a question gets under both releases.
const BOTH: [&str; 8] = [
    "masks not on, the same under both releases",
    "masks on, the same under both releases",
    "masks on, 1.02 covers more pixels",
    "masks on, 1.02 covers as many and shows others",
    "refused under both releases",
    "17 under 1.2, a plane under 1.02",
    "18 under 1.2, a plane under 1.02",
    "17 or 18 under 1.2, another refusal under 1.02",
];

/// Numbers that mean release 1.2, some of which are 1.02's if they are cut.
const NUMBERS_OF_1_2: [u32; 6] = [0, 0, 2, 257, 65_537, u32::MAX];

/// Of metadata of drawn tokens at least one in so many must declare a container.
const LEAST_DECLARED: u64 = 10;

/// The name of a release.
pub fn name(release: Release) -> &'static str {
    match release {
        Release::V1_2 => "1.2",
        Release::V1_02 => "1.02",
    }
}

/// The names of files whose clean file is about 2^40 bytes long, refused as 36 or not.
fn huge(refused: bool) -> impl Iterator<Item = &'static str> {
    let of = HUGE.iter().filter(move |huge| huge.is_refused() == refused);
    of.map(|huge| huge.name)
}

/// Counts and differences.
pub struct Report {
    seed: u64,
    asked: u64,
    salts: u64,
    stage: String,
    /// Sound files, and those that were damaged in some way.
    pub sound: u64,
    /// Files with damage.
    pub damaged: u64,
    /// Files with damage of any kind.
    pub scrambled: u64,
    /// Under 1.2 and under 1.02.
    compared: [Compared; 2],
    /// Questions put under 1.02 with each choice of masks.
    pub all_choices: u64,
    /// Metadata of drawn tokens.
    pub tokens: Declared,
    /// Metadata with a foretold answer.
    pub foretold: Declared,
    /// The section with a short string in it.
    pub short: Declared,
    /// Of the drawn ones and the foretold, those with a mask.
    pub masked: u64,
    /// Settings with a byte or a line changed.
    pub changed: Sounded,
    /// Settings with every short pitch.
    pub pitches: Sounded,
    /// Freedoms that sound files take.
    pub freedoms: Tally,
    /// What metadata hold, or have wrong.
    pub metadata_names: Tally,
    /// Files at a limit.
    pub limits: Tally,
    /// Files with two damages at once.
    pub pairs: Tally,
    /// What both releases say of a file.
    pub verdicts: Tally,
    /// Freedoms that questions take.
    pub ask_freedoms: Tally,
    /// What came of questions.
    pub outcomes: Tally,
    /// What came of them under both releases.
    pub both: Tally,
    /// How arrays and marks are lent.
    pub lent: Tally,
    /// What is selected, and what meets the window.
    pub choices: Tally,
    /// Freedoms that settings take.
    pub settings_freedoms: Tally,
    /// How long sheets are.
    pub sheets: Tally,
    /// What came of quotes.
    pub quoted: Tally,
    /// What goes before what.
    pub orders: Tally,
    /// What came of repacks.
    pub repacked: Tally,
    /// How long buffers for a clean file are.
    pub buffers: Tally,
    /// What a file and its clean file have in common.
    pub alike: Tally,
    /// Clean files at a limit.
    pub repack_limits: Tally,
    /// Of a repack, what goes before what.
    pub repack_orders: Tally,
    /// Files cut to one layer of each tile.
    pub cut: Tally,
    /// Layers that are asked one by one.
    pub far: Tally,
    /// Clauses of the refusal table.
    pub clauses: Tally,
    differences: Vec<String>,
    untold: u64,
    /// The differences of the seed at hand, and the bytes of the first's file.
    fresh: Vec<String>,
    bytes: Vec<u8>,
    failing: Option<Vec<u8>>,
    cases: Vec<Case>,
    kept: Vec<String>,
}

impl Report {
    /// All counts at 0.
    pub fn new() -> Report {
        let all = [EXTERNAL_CLAUSE]
            .into_iter()
            .chain(clauses().into_iter().map(|c| c.name))
            .chain(ask_clauses().iter().map(|c| c.name))
            .chain(REQUEST_CLAUSES.iter().map(|c| c.name))
            .chain(LISTING_CLAUSES.iter().map(|c| c.name))
            .chain([SHEET_CLAUSE])
            .chain(settings_clauses())
            .chain(BUFFER_CLAUSES)
            .chain(REPACK_CLAUSES.iter().map(|l| l.name))
            .chain(huge(true));
        let repack_limits = REPACK_LIMITS.iter().map(|l| l.name).chain(huge(false));
        Report {
            seed: 0,
            asked: 0,
            salts: 0,
            stage: String::new(),
            sound: 0,
            damaged: 0,
            scrambled: 0,
            compared: [Compared::default(); 2],
            all_choices: 0,
            tokens: Declared::default(),
            foretold: Declared::default(),
            short: Declared::default(),
            masked: 0,
            changed: Sounded::default(),
            pitches: Sounded::default(),
            freedoms: Tally::new("Files that take a freedom", freedoms()),
            metadata_names: Tally::new("Metadata by what they hold", metadata_names()),
            limits: Tally::new("Files at a limit", LIMITS.iter().map(|l| l.name)),
            pairs: Tally::new("Files with two damages at once", PAIRS),
            verdicts: Tally::new("Files by what both releases say", VERDICTS),
            ask_freedoms: Tally::new("Questions that take a freedom", ask_freedoms()),
            outcomes: Tally::new("Questions by what came of them", OUTCOMES),
            both: Tally::new("Questions by what came of them under both releases", BOTH),
            lent: Tally::new("Arrays and marks by how they are lent", LENT),
            choices: Tally::new("Questions by what is chosen", CHOICES),
            settings_freedoms: Tally::new("Settings that take a freedom", settings_freedoms()),
            sheets: Tally::new("Sheets by how long they are", SHEETS),
            quoted: Tally::new("Quotes by what came of them", QUOTED),
            orders: Tally::new("Quotes by what goes first", ORDERS),
            repacked: Tally::new("Files by what came of a repack", REPACKED),
            buffers: Tally::new("Repacks by how the buffer is lent", BUFFERS),
            alike: Tally::new("Clean files by what they have of the file", ALIKE),
            repack_limits: Tally::new("Clean files at a limit", repack_limits),
            repack_orders: Tally::new("Repacks by what goes first", REPACK_ORDERS),
            cut: Tally::new("Files cut to one layer by what they are asked", CUT),
            far: Tally::new("Layers that are asked one by one", FAR),
            clauses: Tally::new("Refusals by clause", all),
            differences: Vec::new(),
            untold: 0,
            fresh: Vec::new(),
            bytes: Vec::new(),
            failing: None,
            cases: Vec::new(),
            kept: Vec::new(),
        }
    }

    /// Adds what another report found, of what was compared later.
    pub fn join(&mut self, other: Report) {
        self.sound += other.sound;
        self.damaged += other.damaged;
        self.scrambled += other.scrambled;
        for (compared, more) in self.compared.iter_mut().zip(&other.compared) {
            compared.join(more);
        }
        self.all_choices += other.all_choices;
        self.tokens.join(&other.tokens);
        self.foretold.join(&other.foretold);
        self.short.join(&other.short);
        self.masked += other.masked;
        self.changed.join(&other.changed);
        self.pitches.join(&other.pitches);
        for (tally, more) in self.tallies_mut().into_iter().zip(other.tallies()) {
            tally.join(more);
        }
        self.differences.extend(other.differences);
        self.untold += other.untold + cut(&mut self.differences);
        self.cases.extend(other.cases);
        cut(&mut self.cases);
    }

    /// A seed begins.
    pub fn begin(&mut self, seed: u64, questions: u64) {
        self.seed = seed;
        self.asked = questions;
        self.salts = 0;
    }

    /// Another number for a pattern or a length; a seed has the same ones each time.
    pub fn salt(&mut self) -> u64 {
        self.salts += 1;
        let word = self.seed.wrapping_mul(0x2545_F491_4F6C_DD1D) ^ self.salts;
        word.wrapping_mul(0x9E37_79B9_7F4A_7C15) >> 20
    }

    /// The counts of that release.
    pub fn under(&mut self, release: Release) -> &mut Compared {
        let [newer, older] = &mut self.compared;
        match release {
            Release::V1_2 => newer,
            Release::V1_02 => older,
        }
    }

    /// A call of the library under that release, by one of the numbers that mean it.
    pub fn call<T>(&mut self, release: Release, call: impl FnOnce(u32) -> T) -> T {
        self.under(release).calls += 1;
        call(match release {
            Release::V1_2 => NUMBERS_OF_1_2[self.salt() as usize % NUMBERS_OF_1_2.len()],
            Release::V1_02 => 1,
        })
    }

    /// A call of the library under each release.
    pub fn of_each<T>(&mut self, mut call: impl FnMut(u32) -> T) -> [T; 2] {
        Release::ALL.map(|release| self.call(release, &mut call))
    }

    /// What is compared from here on: its name, and the file.
    pub fn at(&mut self, stage: &str, bytes: &[u8]) {
        self.stage.clear();
        self.stage.push_str(stage);
        self.bytes.clear();
        self.bytes.extend_from_slice(bytes);
    }

    /// Notes a difference if the lent file at hand was changed.
    pub fn check_unchanged(&mut self, bytes: &[u8]) {
        if self.bytes != bytes {
            self.differs("the lent file was changed");
        }
    }

    /// Notes a difference of the file at hand.
    pub fn differs(&mut self, what: impl fmt::Display) {
        let line = format!("seed {}, {}: {what}", self.seed, self.stage);
        self.failing.get_or_insert_with(|| self.bytes.clone());
        if self.differences.len() < MOST_PRINTED {
            self.differences.push(line.clone());
        } else {
            self.untold += 1;
        }
        self.fresh.push(line);
    }

    /// Notes a difference under that release unless both are equal.
    pub fn compare_under<T: PartialEq + fmt::Debug>(
        &mut self,
        release: Release,
        what: impl FnOnce() -> String,
        got: &T,
        wanted: &T,
    ) {
        if got != wanted {
            let (what, release) = (what(), name(release));
            self.differs(format!(
                "{what} under {release}: {got:?} instead of {wanted:?}"
            ));
        }
    }

    /// Notes a difference unless both are equal.
    pub fn compare<T: PartialEq + fmt::Debug>(&mut self, what: &str, got: &T, wanted: &T) -> bool {
        let same = got == wanted;
        if !same {
            self.differs(format!("{what}: {got:?} instead of {wanted:?}"));
        }
        same
    }

    /// A seed ends.
    pub fn end(&mut self, sound: &[u8]) {
        if self.fresh.is_empty() {
            return;
        }
        let lines = std::mem::take(&mut self.fresh);
        let file = self.failing.take().unwrap_or_else(|| sound.to_vec());
        let (seed, asked) = (self.seed, self.asked);
        self.cases.push(Case {
            seed,
            asked,
            lines,
            file,
        });
        cut(&mut self.cases);
    }

    /// The run ends; the seeds on which something differed are kept in files.
    pub fn keep(&mut self) {
        for case in &self.cases {
            self.kept.push(case.keep());
        }
    }

    fn tallies(&self) -> [&Tally; 22] {
        [
            &self.freedoms,
            &self.metadata_names,
            &self.limits,
            &self.pairs,
            &self.verdicts,
            &self.ask_freedoms,
            &self.outcomes,
            &self.both,
            &self.lent,
            &self.choices,
            &self.settings_freedoms,
            &self.sheets,
            &self.quoted,
            &self.orders,
            &self.repacked,
            &self.buffers,
            &self.alike,
            &self.repack_limits,
            &self.repack_orders,
            &self.cut,
            &self.far,
            &self.clauses,
        ]
    }

    fn tallies_mut(&mut self) -> [&mut Tally; 22] {
        [
            &mut self.freedoms,
            &mut self.metadata_names,
            &mut self.limits,
            &mut self.pairs,
            &mut self.verdicts,
            &mut self.ask_freedoms,
            &mut self.outcomes,
            &mut self.both,
            &mut self.lent,
            &mut self.choices,
            &mut self.settings_freedoms,
            &mut self.sheets,
            &mut self.quoted,
            &mut self.orders,
            &mut self.repacked,
            &mut self.buffers,
            &mut self.alike,
            &mut self.repack_limits,
            &mut self.repack_orders,
            &mut self.cut,
            &mut self.far,
            &mut self.clauses,
        ]
    }

    /// No difference, and every name reached unless it is a replay.
    pub fn passed(&self, replay: bool) -> bool {
        let all_reached = self.tallies().iter().all(|t| t.missing().is_empty());
        let enough = self.enough_declared() && self.as_much_under_each();
        self.differences.is_empty() && (replay || all_reached && enough)
    }

    /// Was as much compared under 1.02 as under 1.2, and each of it at all?
    fn as_much_under_each(&self) -> bool {
        let [newer, older] = self.compared.map(|compared| compared.counts());
        let of_each = newer.iter().zip(older);
        of_each.into_iter().all(|(n, o)| *n > 0 && o >= *n) && self.all_choices > 0
    }

    fn enough_declared(&self) -> bool {
        self.tokens.declaring * LEAST_DECLARED >= self.tokens.all
    }
}

/// Leaves as many as are printed; how many were more.
fn cut<T>(all: &mut Vec<T>) -> u64 {
    let more = all.len().saturating_sub(MOST_PRINTED);
    all.truncate(MOST_PRINTED);
    more as u64
}

impl fmt::Display for Report {
    fn fmt(&self, f: &mut fmt::Formatter<'_>) -> fmt::Result {
        for tally in self.tallies() {
            writeln!(f, "{tally}")?;
        }
        let pairs: u64 = self.pairs.counts().map(|(_, count)| count).sum();
        let files = self.sound + self.damaged + pairs + self.scrambled;
        writeln!(
            f,
            "{files} files: {} sound, {} damaged, {pairs} with two damages, {} scrambled",
            self.sound, self.damaged, self.scrambled
        )?;
        for (release, compared) in Release::ALL.into_iter().zip(&self.compared) {
            writeln!(f, "under {}: {compared}", name(release))?;
        }
        writeln!(
            f,
            "{} questions under 1.02 with each choice of masks",
            self.all_choices
        )?;
        writeln!(f, "metadata of drawn tokens: {}", self.tokens)?;
        writeln!(f, "metadata by what they hold: {}", self.foretold)?;
        writeln!(
            f,
            "{} of both with a mask through both composers, masks on",
            self.masked
        )?;
        writeln!(f, "the section with every short string: {}", self.short)?;
        writeln!(f, "settings with a byte or line changed: {}", self.changed)?;
        writeln!(f, "settings with every short pitch: {}", self.pitches)?;
        if !self.enough_declared() {
            writeln!(
                f,
                "NOT REACHED: one in {LEAST_DECLARED} of drawn tokens declares a container"
            )?;
        }
        if !self.as_much_under_each() {
            writeln!(f, "NOT REACHED: as much under 1.02 as under 1.2")?;
        }
        for name in self.tallies().iter().flat_map(|t| t.missing()) {
            writeln!(f, "NOT REACHED: {name}")?;
        }
        for difference in &self.differences {
            writeln!(f, "DIFFERENT: {difference}")?;
        }
        if self.untold > 0 {
            writeln!(f, "and {} more differences", self.untold)?;
        }
        for kept in &self.kept {
            writeln!(f, "{kept}")?;
        }
        Ok(())
    }
}
