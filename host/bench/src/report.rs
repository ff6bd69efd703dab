//! Which measures are taken, and their limits.

use crate::mosaic::TileMask;
use crate::planes::Call;
use crate::table::Line;
use crate::timing::Rounds;
use crate::{bits, layers, leaves, metadata, probe, quote, repack, whole};
use czi::PixelType;

/// The pixel types measured, one for each number of bytes.
const PIXEL_TYPES: [PixelType; 4] = [
    PixelType::Gray16,
    PixelType::Bgr24,
    PixelType::Bgr48,
    PixelType::Gray8,
];

/// The masks whose measure has a limit.
const LIMITED_MASKS: (TileMask, PixelType) = (TileMask::AllValid, PixelType::Gray16);

/// The lines of both tables.
#[derive(Default)]
pub struct Report {
    /// The figures to reach.
    pub limits: Vec<Line>,
    /// The others.
    pub others: Vec<Line>,
}

impl Report {
    /// Takes the measures of metadata alone.
    pub fn of_metadata(rounds: Rounds) -> Report {
        let mut report = Report::default();
        report.metadata(rounds);
        report
    }

    /// Takes the measures of quotes alone.
    pub fn of_quotes(rounds: Rounds) -> Report {
        let mut report = Report::default();
        report.quotes(rounds);
        report
    }

    /// Takes the measures of repacks alone.
    pub fn of_repacks(rounds: Rounds) -> Report {
        let mut report = Report::default();
        report.repacks(rounds);
        report
    }

    /// Takes the measure of layers alone.
    pub fn of_layers(rounds: Rounds) -> Report {
        let mut report = Report::default();
        report.layers(rounds);
        report
    }

    /// Takes the measures: all, or those with a limit.
    pub fn new(rounds: Rounds, all: bool) -> Report {
        let mut report = Report::default();
        report.no_masks(rounds);
        for mask in [TileMask::AllValid, TileMask::HalfValid] {
            for of in PIXEL_TYPES {
                if all || (mask, of) == LIMITED_MASKS {
                    report.masked(of, mask, rounds);
                }
            }
        }
        report.map_bits(rounds, all);
        report.judge(rounds, all);
        report.metadata(rounds);
        report.repacks(rounds);
        report.layers(rounds);
        if all {
            report.quotes(rounds);
        }
        if probe::LINKED {
            report.equal_range(rounds);
        }
        report
    }

    fn no_masks(&mut self, rounds: Rounds) {
        let mut plain_lines = Vec::new();
        for of in PIXEL_TYPES {
            let calls = [Call::QUICK_OFF, Call::PLAIN_OFF, Call::QUICK_BLACK];
            let [quick, plain, black, native] = whole::calls(of, TileMask::None, calls, rounds);
            let (quick_limit, plain_limit) = match of.bytes() {
                1 => (1.35, 1.45),
                _ => (1.20, 1.35),
            };
            let line = |call: &str, library| {
                Line::new(format!("{call}, {} / native", bytes(of)), library, native)
            };
            self.limits
                .push(line("whole quick call", quick).at_most(quick_limit));
            plain_lines.push(line("whole plain call", plain).at_most(plain_limit));
            self.others.push(line("whole quick call, on black", black));
        }
        self.limits.append(&mut plain_lines);
    }

    fn masked(&mut self, of: PixelType, mask: TileMask, rounds: Rounds) {
        let calls = [Call::QUICK, Call::PLAIN, Call::QUICK_OFF];
        let [quick, plain, off, native] = whole::calls(of, mask, calls, rounds);
        let valid = match mask {
            TileMask::AllValid => "all valid",
            _ => "half valid",
        };
        let bytes = bytes(of);
        let measure = format!("masks on, {valid} / masks off, quick, {bytes}");
        let line = Line::new(measure, quick, off);
        if (mask, of) == LIMITED_MASKS {
            self.limits.push(line.at_most(1.4));
        } else {
            self.others.push(line);
        }
        for (call, library) in [("whole quick call", quick), ("whole plain call", plain)] {
            let measure = format!("{call}, masks on, {valid}, {bytes} / native");
            self.others.push(Line::new(measure, library, native));
        }
    }

    fn map_bits(&mut self, rounds: Rounds, all: bool) {
        for of in [PixelType::Gray8, PixelType::Gray16] {
            let line = |map: &str, upper| {
                let [turn, each_pixel] = bits::turn(of, upper, rounds);
                let measure = format!("{map} map bits, {} / per-pixel loop", bytes(of));
                Line::new(measure, turn, each_pixel)
            };
            self.limits
                .push(line("random", TileMask::Random).at_most(3.5));
            if all {
                self.others.push(line("alternating", TileMask::Alternating));
            }
        }
    }

    fn judge(&mut self, rounds: Rounds, all: bool) {
        let line = |attachments: &str, mask| {
            let [library, reference] = leaves::judge(mask, rounds);
            let measure = format!("judge of 4,096 tiles, {attachments} / reference");
            Line::new(measure, library, reference)
        };
        self.limits
            .push(line("no attachments", TileMask::None).at_most(1.5));
        let (views, judged) = leaves::views(rounds);
        for ((name, _), took) in leaves::VIEWS.iter().zip(views) {
            let measure = format!("view of 4,096 tiles, {name} / judge");
            self.limits
                .push(Line::new(measure, took, judged).at_most(1.1));
        }
        let [records, judged] = leaves::records(rounds);
        let measure = "all records of 4,096 tiles, 5 dimensions each / judge";
        self.limits
            .push(Line::new(measure, records, judged).at_most(3.0));
        if all {
            self.others
                .push(line("each with a mask", TileMask::AllValid));
            let [older, newer] = leaves::judge_by_release(rounds);
            let measure = "judge of 4,096 tiles, each with a mask, by 1.02 / by 1.2";
            self.others.push(Line::new(measure, older, newer));
            let [often, once] = leaves::judge_named_often(rounds);
            let measure = "judge of a sub-block that 4,096 entries name / that one names";
            self.others.push(Line::new(measure, often, once));
        }
    }

    fn metadata(&mut self, rounds: Rounds) {
        let [library, native] = metadata::ordinary(rounds);
        let line = Line::new(
            "judge of 1 MiB of metadata / native scanner",
            library,
            native,
        );
        self.limits.push(line.at_most(1.5));
        for kind in metadata::KINDS {
            let [whole, half] = metadata::twice(kind, rounds);
            let measure = format!("judge of 4 MiB of metadata, {} / of 2 MiB", kind.0);
            self.limits
                .push(Line::new(measure, whole, half).at_most(2.2));
        }
    }

    fn repacks(&mut self, rounds: Rounds) {
        let [library, native] = repack::large(rounds);
        let measure = "repack of 1 GB, every second segment dead / native copies";
        self.limits
            .push(Line::new(measure, library, native).at_most(1.15));
        let [library, judged] = repack::small(rounds);
        let measure = "repack of 4,096 tiles, no attachments / judge";
        self.limits
            .push(Line::new(measure, library, judged).at_most(3.0));
    }

    fn layers(&mut self, rounds: Rounds) {
        let measure = "one layer of 64, quick, 1 byte / a file that has it alone";
        let line = Line::median(measure, layers::runs(rounds));
        self.limits.push(line.at_most(1.05));
    }

    fn quotes(&mut self, rounds: Rounds) {
        for of in [PixelType::Gray16, PixelType::Gray8] {
            let [quote, quick] = quote::whole(of, TileMask::AllValid, rounds);
            let measure = format!("whole quote, masks on, {} / whole quick call", bytes(of));
            self.others.push(Line::new(measure, quote, quick));
        }
        let [library, native] = quote::garbage(rounds);
        let measure = "quote by 1 MiB of digits / native search for a comma";
        self.others.push(Line::new(measure, library, native));
        let [whole, half] = quote::twice(rounds);
        let measure = "quote by 2 MiB of digits / by 1 MiB";
        self.others.push(Line::new(measure, whole, half));
    }

    fn equal_range(&mut self, rounds: Rounds) {
        let [library, native] = leaves::equal_range(rounds);
        let line = Line::new("256-byte equal range / memcmp", library, native);
        self.limits.push(line.per(leaves::COMPARISONS).at_most(1.6));
    }
}

fn bytes(of: PixelType) -> String {
    match of.bytes() {
        1 => "1 byte".into(),
        bytes => format!("{bytes} bytes"),
    }
}
