//! Parts of a run on several threads. Each part has a report of its own, and they
//! are joined in the order of the parts, so that the outcome does not depend on
//! which thread took which.

use crate::report::Report;
use std::sync::atomic::{AtomicUsize, Ordering::SeqCst};
use std::sync::Mutex;
use std::thread;

/// Runs the parts of those numbers, so many at a time and from the last on, and joins
/// what they found from the first on.
pub fn run(threads: usize, parts: usize, part: impl Fn(usize, &mut Report) + Sync) -> Report {
    let (taken, found) = (AtomicUsize::new(0), Mutex::new(Vec::new()));
    let work = || loop {
        let before = taken.fetch_add(1, SeqCst);
        let Some(number) = parts.checked_sub(1 + before) else {
            return;
        };
        let mut report = Report::new();
        part(number, &mut report);
        found.lock().expect("no part panics").push((number, report));
    };
    thread::scope(|scope| {
        for _ in 0..threads {
            scope.spawn(work);
        }
    });
    let mut found = found.into_inner().expect("no part panics");
    found.sort_by_key(|(number, _)| *number);
    let mut all = Report::new();
    for (_, report) in found {
        all.join(report);
    }
    all
}

#[cfg(test)]
mod tests {
    use super::*;

    /// Each part notes its number, the sooner the later it is.
    fn noted(threads: usize) -> String {
        let report = run(threads, 40, |number, report| {
            thread::sleep(std::time::Duration::from_micros(40 - number as u64));
            report.begin(number as u64, 0);
            report.at("a part", &[]);
            report.sound += 1;
            if number % 2 == 0 {
                report.differs("noted");
            }
        });
        report.to_string()
    }

    #[test]
    fn the_order_is_that_of_the_parts_on_any_number_of_threads() {
        let one = noted(1);
        assert!(one.contains("40 files: 40 sound"), "{one}");
        let lines = |text: &str| -> Vec<String> {
            let lines = text.lines().filter(|line| line.starts_with("DIFFERENT"));
            lines.map(String::from).collect()
        };
        let wanted = (0..40).step_by(2);
        let wanted = wanted.map(|k| format!("DIFFERENT: seed {k}, a part: noted"));
        assert_eq!(lines(&one), wanted.collect::<Vec<_>>());
        for threads in [2, 3, 7] {
            assert_eq!(noted(threads), one);
        }
    }
}
