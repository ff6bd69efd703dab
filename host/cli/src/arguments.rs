//! The words of a command line: options, flags and paths.

use crate::failure::Failure;
use std::ffi::{OsStr, OsString};
use std::os::unix::ffi::OsStrExt;
use std::path::PathBuf;

/// What a command takes.
pub struct Takes {
    /// Options without a value.
    pub flags: &'static [&'static str],
    /// Options with a value, given once.
    pub values: &'static [&'static str],
    /// Options with a value, given any number of times.
    pub many: &'static [&'static str],
}

/// The words behind a command, each looked up in what it takes.
#[derive(Default)]
pub struct Arguments {
    paths: Vec<OsString>,
    options: Vec<(String, OsString)>,
}

fn usage<T>(what: String) -> Result<T, Failure> {
    Err(Failure::Usage(what))
}

/// An option's name, and its value where one stands behind `=`.
fn split(word: &OsStr) -> Option<(String, Option<OsString>)> {
    let bytes = word.as_bytes();
    if !bytes.starts_with(b"--") {
        return None;
    }
    let at = bytes.iter().position(|byte| *byte == b'=');
    let name = String::from_utf8_lossy(&bytes[..at.unwrap_or(bytes.len())]).into_owned();
    let value = at.map(|at| OsStr::from_bytes(&bytes[at + 1..]).to_os_string());
    Some((name, value))
}

impl Arguments {
    /// Sorts the words. What stands behind `--` is a path.
    pub fn parse(words: Vec<OsString>, takes: &Takes) -> Result<Arguments, Failure> {
        let mut arguments = Arguments::default();
        let mut words = words.into_iter();
        while let Some(word) = words.next() {
            match split(&word) {
                Some((name, None)) if name == "--" => arguments.paths.extend(words.by_ref()),
                Some((name, value)) => {
                    let value = arguments.take(&name, value, takes, &mut words)?;
                    arguments.options.push((name, value));
                }
                None if word.as_bytes().starts_with(b"-") && word != "-" => {
                    let name = word.to_string_lossy();
                    return usage(format!("there is no option {name} here"));
                }
                None => arguments.paths.push(word),
            }
        }
        Ok(arguments)
    }

    /// The value of an option, behind `=` or as the next word.
    fn take(
        &self,
        name: &str,
        value: Option<OsString>,
        takes: &Takes,
        words: &mut impl Iterator<Item = OsString>,
    ) -> Result<OsString, Failure> {
        let is_flag = takes.flags.contains(&name);
        let is_many = takes.many.contains(&name);
        if !is_flag && !is_many && !takes.values.contains(&name) {
            return usage(format!("there is no option {name} here"));
        }
        if !is_many && self.options.iter().any(|(given, _)| given == name) {
            return usage(format!("{name} is given twice"));
        }
        match value {
            Some(_) if is_flag => usage(format!("{name} takes no value")),
            Some(value) => Ok(value),
            None if is_flag => Ok(OsString::new()),
            None => match words.next() {
                Some(word) if split(&word).is_none() => Ok(word),
                _ => usage(format!("{name} wants a value")),
            },
        }
    }

    /// Is the flag there?
    pub fn flag(&self, name: &str) -> bool {
        self.options.iter().any(|(given, _)| given == name)
    }

    /// An option's value as a path.
    pub fn path(&self, name: &str) -> Option<PathBuf> {
        let found = self.options.iter().find(|(given, _)| given == name);
        found.map(|(_, value)| value.into())
    }

    /// An option's value as text.
    pub fn text(&self, name: &str) -> Result<Option<&str>, Failure> {
        Ok(self.texts(name)?.first().copied())
    }

    /// All values of an option as text.
    pub fn texts(&self, name: &str) -> Result<Vec<&str>, Failure> {
        let values = self.options.iter().filter(|(given, _)| given == name);
        let text = values.map(|(_, word)| match word.to_str() {
            Some(text) => Ok(text),
            None => usage(format!("{name}: {word:?} is not text")),
        });
        text.collect()
    }

    /// The one path, which has that name in the help.
    pub fn only_path(&self, name: &str) -> Result<PathBuf, Failure> {
        match &self.paths[..] {
            [] => usage(format!("{name} is missing")),
            [path] => Ok(path.into()),
            [_, more, ..] => usage(format!("{more:?} is one argument too many")),
        }
    }
}

/// The word as a number.
pub fn number<N: std::str::FromStr>(word: &str, name: &str) -> Result<N, Failure> {
    let no_number = || Failure::Usage(format!("{name}: {word:?} is no number that fits"));
    word.parse().map_err(|_| no_number())
}

/// The word as one of some choices.
pub fn choose<T: Copy>(word: &str, name: &str, all: &[(&str, T)]) -> Result<T, Failure> {
    let found = all.iter().find(|(choice, _)| *choice == word);
    found.map(|(_, value)| *value).ok_or_else(|| {
        let names: Vec<&str> = all.iter().map(|(choice, _)| *choice).collect();
        Failure::Usage(format!("{name} is {}, not {word:?}", names.join(" or ")))
    })
}
