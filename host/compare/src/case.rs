//! The files that a failing case is kept in.

use std::fs;
use std::path::PathBuf;

/// A seed on which something differs.
pub struct Case {
    /// The seed.
    pub seed: u64,
    /// How many drawn questions there were.
    pub asked: u64,
    /// What differs.
    pub lines: Vec<String>,
    /// The file of the first difference.
    pub file: Vec<u8>,
}

impl Case {
    /// Writes it; a line that says where it is.
    pub fn keep(&self) -> String {
        let again = format!(
            "cd host && cargo run --offline --release -p compare -- --replay {} --questions {}",
            self.seed, self.asked
        );
        let text = format!("{}\n\nreplayed by: {again}\n", self.lines.join("\n"));
        let folder = folder();
        let case = folder.join(format!("seed-{}.txt", self.seed));
        let file = folder.join(format!("seed-{}.czi", self.seed));
        let written = fs::create_dir_all(&folder)
            .and_then(|()| fs::write(&case, text))
            .and_then(|()| fs::write(&file, &self.file));
        match written {
            Ok(()) => format!("kept in {}, replayed by: {again}", case.display()),
            Err(error) => format!("not kept ({error}), replayed by: {again}"),
        }
    }
}

/// The folder of failing cases, under the repository's target/.
fn folder() -> PathBuf {
    PathBuf::from(env!("CARGO_MANIFEST_DIR")).join("../../target/compare")
}
