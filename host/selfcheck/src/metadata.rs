//! Metadata by themselves: they declare a container exactly as foretold.

use crate::report::Report;
use generate::{draw_tokens, Metadata, Random};
use reference::declares_container;

/// A file brings so many of each kind with it.
const METADATA: usize = 12;

/// Metadata that declare a container, others, and drawn tokens, of which nothing is foretold.
pub fn check(random: &mut Random, report: &mut Report) {
    is_foretold(&Metadata::none(), report);
    for _ in 0..METADATA {
        is_foretold(&Metadata::declaring(random), report);
        is_foretold(&Metadata::other(random), report);
        note(declares_container(&draw_tokens(random)), report);
    }
}

fn is_foretold(metadata: &Metadata, report: &mut Report) {
    let declares = declares_container(&metadata.bytes);
    note(declares, report);
    if declares == metadata.declares {
        metadata
            .names
            .iter()
            .for_each(|name| report.metadata_names.add(name));
    } else {
        let shown = metadata.bytes.escape_ascii();
        report.differs(format!(
            "declares: {declares}: {:?}: {shown}",
            metadata.names
        ));
    }
}

fn note(declares: bool, report: &mut Report) {
    report.metadata += 1;
    report.declared += u64::from(declares);
}
