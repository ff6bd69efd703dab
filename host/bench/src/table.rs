//! Tables of measures, as aligned text or as Markdown.

use std::time::Duration;

/// One measure: the library's time against another's.
pub struct Line {
    /// What is measured, against what.
    pub measure: String,
    /// The library's time.
    pub library: f64,
    /// What it is held against.
    pub against: f64,
    /// The ratio is to be at most this.
    pub at_most: Option<f64>,
    /// Of several runs, how many they are, and the least and the greatest ratio.
    pub spread: Option<(usize, f64, f64)>,
}

impl Line {
    /// The measure without a limit.
    pub fn new(measure: impl Into<String>, library: Duration, against: Duration) -> Line {
        Line {
            measure: measure.into(),
            library: library.as_secs_f64(),
            against: against.as_secs_f64(),
            at_most: None,
            spread: None,
        }
    }

    /// The run in the middle of several, by their ratios, and their spread.
    pub fn median(measure: impl Into<String>, mut runs: Vec<[Duration; 2]>) -> Line {
        let ratio =
            |[library, against]: &[Duration; 2]| library.as_secs_f64() / against.as_secs_f64();
        runs.sort_by(|one, other| ratio(one).total_cmp(&ratio(other)));
        let [library, against] = runs[runs.len() / 2];
        let (least, greatest) = (ratio(&runs[0]), ratio(&runs[runs.len() - 1]));
        Line {
            spread: Some((runs.len(), least, greatest)),
            ..Line::new(measure, library, against)
        }
    }

    /// Both times are of so many calls: their parts for one call.
    pub fn per(mut self, calls: usize) -> Line {
        self.library /= calls as f64;
        self.against /= calls as f64;
        self
    }

    /// The measure with a limit.
    pub fn at_most(mut self, ratio: f64) -> Line {
        self.at_most = Some(ratio);
        self
    }

    fn cells(&self) -> Vec<String> {
        let ratio = self.library / self.against;
        let mut cells = vec![
            self.measure.clone(),
            shown(self.library),
            shown(self.against),
            format!("{ratio:.3}"),
        ];
        if let Some(at_most) = self.at_most {
            cells.push(format!("{at_most:.2}"));
            let reached = ratio <= at_most;
            let mut said = if reached { "reached" } else { "not reached" }.to_string();
            if let Some((runs, least, greatest)) = self.spread {
                said += &format!(": median of {runs} runs, {least:.3} to {greatest:.3}");
            }
            cells.push(said);
        }
        cells
    }
}

/// A time in milliseconds, or in nanoseconds where it is below a microsecond.
fn shown(seconds: f64) -> String {
    if seconds < 1e-6 {
        format!("{:.2} ns", seconds * 1e9)
    } else {
        format!("{:.3} ms", seconds * 1e3)
    }
}

/// A table of lines that all have a limit, or none.
pub fn table(lines: &[Line], markdown: bool) -> String {
    let limits = lines.iter().any(|line| line.at_most.is_some());
    let heads = ["measure", "library", "against", "ratio", "at most", ""];
    let heads = &heads[..if limits { 6 } else { 4 }];
    let mut rows = vec![heads.iter().map(|head| head.to_string()).collect()];
    rows.extend(lines.iter().map(Line::cells));
    let width = |column: usize| rows.iter().map(|row: &Vec<String>| row[column].len()).max();
    let widths: Vec<usize> = (0..heads.len()).filter_map(width).collect();
    let mut text = String::new();
    for (n, row) in rows.iter().enumerate() {
        // Names stand to the left, numbers to the right.
        let cells = row.iter().zip(&widths).enumerate();
        let cells: Vec<String> = cells
            .map(|(column, (cell, &width))| match column {
                0 | 5 => format!("{cell:<width$}"),
                _ => format!("{cell:>width$}"),
            })
            .collect();
        if markdown {
            text += &format!("| {} |\n", cells.join(" | "));
            if n == 0 {
                let dashes: Vec<String> = (0..heads.len()).map(rule).collect();
                text += &format!("|{}|\n", dashes.join("|"));
            }
        } else {
            text += cells.join("  ").trim_end();
            text += "\n";
        }
    }
    text
}

fn rule(column: usize) -> String {
    match column {
        0 | 5 => "---".into(),
        _ => "--:".into(),
    }
}

#[cfg(test)]
mod tests {
    use super::{table, Line};
    use std::time::Duration;

    fn lines() -> Vec<Line> {
        let at = |ms| Duration::from_millis(ms);
        vec![
            Line::new("one / other", at(12), at(10)).at_most(1.2),
            Line::new("a longer one / other", at(121), at(100)).at_most(1.2),
        ]
    }

    #[test]
    fn text_is_aligned_and_says_what_is_not_reached() {
        let text = "\
measure                  library     against  ratio  at most
one / other            12.000 ms   10.000 ms  1.200     1.20  reached
a longer one / other  121.000 ms  100.000 ms  1.210     1.20  not reached
";
        assert_eq!(table(&lines(), false), text);
    }

    #[test]
    fn markdown_has_a_rule_below_its_heads() {
        let text = table(&lines(), true);
        assert_eq!(text.lines().nth(1), Some("|---|--:|--:|--:|--:|---|"));
        assert_eq!(text.lines().count(), 4);
    }

    #[test]
    fn of_several_runs_the_middle_counts() {
        let runs = [110, 90, 104, 300, 95]
            .map(|ms| [Duration::from_millis(ms), Duration::from_millis(100)]);
        let said = |at_most| table(&[Line::median("x", runs.to_vec()).at_most(at_most)], false);
        let line = "1.040     1.05  reached: median of 5 runs, 0.900 to 3.000\n";
        assert!(said(1.05).ends_with(line), "{}", said(1.05));
        assert!(said(1.03).contains("  not reached: median of 5 runs, "));
    }

    #[test]
    fn the_time_of_one_call_of_many() {
        let line = Line::new("x", Duration::from_micros(20), Duration::from_micros(10)).per(1000);
        assert!(table(&[line], false).contains("20.00 ns  10.00 ns  2.000"));
    }
}
