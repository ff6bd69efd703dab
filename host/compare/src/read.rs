//! A file, and what both sides say of it under each release. What the releases have
//! in common is held of the library's own answers, beside the reference's.

use crate::reader::answer;
use crate::report::Report;
use czi::calls::{self, Answer, TileRecord};
use generate::verdicts;
use reference::{judge, File, Refusal, Release};
use std::fmt::Debug;

/// A file as it is read under 1.2 and under 1.02.
pub struct Read<'a> {
    /// The lent bytes.
    pub bytes: &'a [u8],
    /// By the reference.
    by: [Result<File<'a>, Refusal>; 2],
    /// The library's verdict under 1.2 is 17 or 18.
    is_chunk: bool,
}

impl<'a> Read<'a> {
    /// Judges the file by both sides under both releases. The library's verdicts are
    /// a pair that some file may have: alike unless that under 1.2 is 17 or 18, never
    /// one of these under 1.02.
    pub fn new(bytes: &'a [u8], report: &mut Report) -> Read<'a> {
        let by = Release::ALL.map(|release| judge(bytes, release));
        let said = report.of_each(|release| calls::judge(bytes, release));
        for (release, (file, said)) in Release::ALL.into_iter().zip(by.iter().zip(&said)) {
            let wanted = answer(file.as_ref().map(|_| ()).map_err(|r| *r), ());
            report.compare_under(release, || "judge".into(), said, &wanted);
        }
        let [newer, older] = said.map(refusal);
        match verdicts(newer, older) {
            Some(name) => report.verdicts.add(name),
            None => report.differs(format!(
                "{newer:?} under 1.2 and {older:?} under 1.02, which no file has"
            )),
        }
        report.check_unchanged(bytes);
        Read {
            bytes,
            by,
            is_chunk: matches!(newer, Some(r) if [17, 18].contains(&r.number)),
        }
    }

    /// As the reference reads it under that release.
    pub fn under(&self, release: Release) -> Result<&File<'a>, Refusal> {
        let [newer, older] = &self.by;
        let file = match release {
            Release::V1_2 => newer,
            Release::V1_02 => older,
        };
        file.as_ref().map_err(|refusal| *refusal)
    }

    /// The reference's refusals under both.
    pub fn refusals(&self) -> [Option<Refusal>; 2] {
        Release::ALL.map(|release| self.under(release).err())
    }

    /// What it has under 1.02, which accepts all that 1.2 accepts.
    pub fn widest(&self) -> Option<&File<'a>> {
        self.under(Release::V1_02).ok()
    }

    /// The library's answers under both are the same, unless 1.2 gives 17 or 18.
    pub fn hold_alike<T: PartialEq + Debug>(
        &self,
        what: impl FnOnce() -> String,
        [newer, older]: &[T; 2],
        report: &mut Report,
    ) {
        if !self.is_chunk && newer != older {
            report.differs(format!(
                "{}: {newer:?} under 1.2 and {older:?} under 1.02",
                what()
            ));
        }
    }
}

/// The refusal of a verdict.
fn refusal(said: Answer<()>) -> Option<Refusal> {
    (said.number != 0).then(|| Refusal::new(said.number, said.place))
}

/// Where a record says whether there is a mask, and what is 0 where there is none.
const MASK: std::ops::RangeInclusive<usize> = 17..=21;

/// The record without its mask, as it is under 1.02.
pub fn without_mask(mut record: TileRecord) -> TileRecord {
    hide_masks(&mut record.numbers);
    record
}

/// The numbers of records without their masks.
pub fn hide_masks(numbers: &mut [u64]) {
    for row in numbers.chunks_exact_mut(calls::TILE_NUMBERS) {
        row[MASK].fill(0);
    }
}

#[cfg(test)]
mod tests {
    use super::*;

    #[test]
    fn a_mask_is_five_numbers() {
        let numbers = std::array::from_fn(|k| 1 + k as u64);
        let starts = [4, 5, 6, 7];
        let hidden = without_mask(TileRecord { numbers, starts });
        let zeros = (0..calls::TILE_NUMBERS).filter(|k| hidden.numbers[*k] == 0);
        assert_eq!(zeros.collect::<Vec<_>>(), [17, 18, 19, 20, 21]);
        assert_eq!((hidden.numbers[16], hidden.starts), (17, starts));
    }

    #[test]
    fn answers_that_are_not_alike_are_a_difference() {
        let file = generate::sound(1).bytes;
        let mut report = Report::new();
        report.at("alike", &file);
        let mut read = Read::new(&file, &mut report);
        read.hold_alike(|| "x".into(), &[1, 1], &mut report);
        assert!(report.passed(true), "{report}");
        read.is_chunk = true;
        read.hold_alike(|| "x".into(), &[1, 2], &mut report);
        assert!(report.passed(true), "{report}");
        read.is_chunk = false;
        read.hold_alike(|| "x".into(), &[1, 2], &mut report);
        assert!(!report.passed(true));
    }
}
