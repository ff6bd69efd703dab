//! The command's arguments.

/// How the command is called.
pub const USAGE: &str = "usage: selfcheck [--files N] [--first SEED] [--questions N-A-FILE]
       selfcheck --settings N [--first SEED]
       selfcheck --repacks N [--first SEED]
       selfcheck --planes N [--first SEED]

--settings writes so many settings of a quote instead, for reading.py, --repacks so many
files with their clean files, and --planes so many files with a question and its plane.";

/// What is to be run.
pub struct Options {
    /// The first seed.
    pub first: u64,
    /// The number of files.
    pub files: u64,
    /// Questions to each file, beside those that are refused by plan.
    pub questions: u64,
    /// So many settings are written instead.
    pub settings: Option<u64>,
    /// So many files with their clean files are written instead.
    pub repacks: Option<u64>,
    /// So many files with a question and its plane are written instead.
    pub planes: Option<u64>,
}

impl Options {
    /// Reads the arguments.
    pub fn parse(mut arguments: impl Iterator<Item = String>) -> Result<Options, String> {
        let mut options = Options {
            first: 0,
            files: 1000,
            questions: 5,
            settings: None,
            repacks: None,
            planes: None,
        };
        while let Some(name) = arguments.next() {
            let field = match name.as_str() {
                "--files" => &mut options.files,
                "--first" => &mut options.first,
                "--questions" => &mut options.questions,
                "--settings" => options.settings.insert(0),
                "--repacks" => options.repacks.insert(0),
                "--planes" => options.planes.insert(0),
                _ => return Err(format!("unknown argument {name}")),
            };
            let value = arguments.next().ok_or(format!("{name} wants a number"))?;
            *field = value
                .parse()
                .map_err(|_| format!("{name}: {value} is no number"))?;
        }
        if options.first.checked_add(options.files).is_none() {
            return Err("seeds are numbers of 64 bits".to_string());
        }
        Ok(options)
    }
}
