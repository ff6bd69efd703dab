//! How often each of some names was reached.

use std::fmt;

/// Counts by name, in the order in which the names were given.
#[derive(Clone, Debug)]
pub struct Tally {
    title: &'static str,
    rows: Vec<Row>,
}

#[derive(Clone, Debug)]
struct Row {
    name: &'static str,
    count: u64,
    external: bool,
}

impl Tally {
    /// A tally of those names, each at 0.
    pub fn new(title: &'static str, names: impl IntoIterator<Item = &'static str>) -> Tally {
        let row = |name| Row {
            name,
            count: 0,
            external: false,
        };
        Tally {
            title,
            rows: names.into_iter().map(row).collect(),
        }
    }

    /// The same with a name more that is reached elsewhere and may stay at 0.
    pub fn with_external(mut self, name: &'static str) -> Tally {
        self.rows.push(Row {
            name,
            count: 0,
            external: true,
        });
        self
    }

    /// Counts a name, which must be one of the tally's.
    pub fn add(&mut self, name: &str) {
        match self.rows.iter_mut().find(|row| row.name == name) {
            Some(row) => row.count += 1,
            None => panic!("{}: no row named {name:?}", self.title),
        }
    }

    /// Adds the counts of another tally of the same names.
    pub fn join(&mut self, other: &Tally) {
        for (row, more) in self.rows.iter_mut().zip(&other.rows) {
            assert_eq!(row.name, more.name, "{}", self.title);
            row.count += more.count;
        }
    }

    /// The names that were reached not once and are not external.
    pub fn missing(&self) -> Vec<&'static str> {
        let missing = |row: &&Row| row.count == 0 && !row.external;
        self.rows
            .iter()
            .filter(missing)
            .map(|row| row.name)
            .collect()
    }

    /// The counts in order.
    pub fn counts(&self) -> impl Iterator<Item = (&'static str, u64)> + '_ {
        self.rows.iter().map(|row| (row.name, row.count))
    }
}

impl fmt::Display for Tally {
    fn fmt(&self, f: &mut fmt::Formatter<'_>) -> fmt::Result {
        writeln!(f, "{}", self.title)?;
        for row in &self.rows {
            let note = if row.external { "  (external)" } else { "" };
            writeln!(f, "{:>9}  {}{}", row.count, row.name, note)?;
        }
        Ok(())
    }
}
