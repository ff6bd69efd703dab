//! Sound files: accepted, and read as they were planned.

use crate::report::Report;
use generate::{freedoms_of, EntryPlace, Random, Sound, LIMITS, LISTING_CLAUSES};
use reference::{judge, list, Dimension, Extent, File, Layers, Mask, Release, Tile, View};

/// A sound file is accepted with all records, views and figures as planned, under
/// both releases.
pub fn check(sound: &Sound, report: &mut Report) {
    report.files += 1;
    report.bytes += sound.bytes.len() as u64;
    for freedom in freedoms_of(sound) {
        report.freedoms.add(freedom);
    }
    for release in Release::ALL {
        report.compare("listing", list(&sound.bytes, release), listing(sound));
        match judge(&sound.bytes, release) {
            Ok(file) => check_file(&file, sound, release, report),
            Err(refusal) => report.differs(format!("a sound file is {refusal}")),
        }
    }
}

fn check_file(file: &File, sound: &Sound, release: Release, report: &mut Report) {
    report.compare("tiles", file.tiles.len(), sound.entries.len());
    for (k, entry) in sound.entries.iter().enumerate() {
        let mut tile = tile(k as u64, entry, sound);
        if release == Release::V1_02 {
            tile.mask = None;
        }
        report.compare("tile", file.tile(k as u64), Ok(&tile));
        let pixels = tile.pixels.of(&sound.bytes);
        report.compare("pixels", pixels, &sound.tile(entry).pixels);
        let metadata = tile.metadata.of(&sound.bytes);
        report.compare("metadata", metadata, &sound.tile(entry).metadata.bytes);
        let attachment = tile.attachment.of(&sound.bytes);
        report.compare("attachment", attachment, &sound.tile(entry).attachment());
    }
    let wanted = sound.attachments.len();
    report.compare("attachments", file.attachments.len(), wanted);
    for (k, entry) in sound.attachments.iter().enumerate() {
        let start = sound.segments[entry.segment].content() + 256;
        let data = view(start, entry.data_size);
        report.compare("data", file.attachment_data(k as u64), Ok(data));
        let planned = &sound.bytes[entry.place..entry.place + 128];
        let attachment = file.attachment(k as u64).ok();
        let told = attachment.map(|a| [&a.content_guid[..], &a.file_type, &a.name].concat());
        report.compare("attachment record", told.as_deref(), Some(&planned[24..]));
    }
    let (xml, attachment) = match sound.metadata {
        None => Default::default(),
        Some(m) => {
            let start = sound.segments[m.segment].content() + 256;
            let xml = view(start, m.xml_size);
            (xml, view(start + m.xml_size, m.attachment_size))
        }
    };
    report.compare("common XML", file.xml, xml);
    report.compare("its attachment", file.xml_attachment, attachment);
}

fn view(start: usize, length: usize) -> View {
    View {
        start: start as u64,
        length: length as u64,
    }
}

/// The record that the plan of an entry makes.
fn tile(number: u64, entry: &EntryPlace, sound: &Sound) -> Tile {
    let plan = sound.tile(entry);
    let attachment = plan.attachment();
    let metadata_at = sound.metadata_at(entry);
    let pixels_at = sound.pixels_at(entry);
    let attachment_at = sound.attachment_at(entry);
    Tile {
        number,
        place: entry.place as u64,
        pixel_type: plan.pixel_type as u32,
        bytes_a_pixel: generate::bytes_a_pixel(plan.pixel_type) as u64,
        file_position: sound.sub_block(entry).position as u64,
        pyramid: plan.pyramid,
        x: extent(plan.x()),
        y: extent(plan.y()),
        m: plan.m(),
        layers: plan.layered().map(|d| Layers {
            letter: d.letter,
            start: d.start,
            size: d.size,
        }),
        metadata: view(metadata_at, plan.metadata.bytes.len()),
        pixels: view(pixels_at, plan.pixels.len()),
        attachment: view(attachment_at, attachment.len()),
        mask: mask(plan, attachment_at),
        dimensions: plan.dimensions.iter().map(dimension).collect(),
    }
}

fn extent(d: &generate::Dimension) -> Extent {
    Extent {
        start: d.start,
        size: d.size,
        stored: d.stored(),
    }
}

fn dimension(d: &generate::Dimension) -> Dimension {
    Dimension {
        letter: d.letter,
        start: d.start,
        size: d.size,
        coordinate_bits: d.coordinate,
        stored: d.stored(),
    }
}

fn mask(plan: &generate::Tile, attachment_at: usize) -> Option<Mask> {
    let mut place = attachment_at;
    for chunk in plan.chunks()? {
        if chunk.is_mask() {
            let shape = chunk.shape?;
            return Some(Mask {
                place: place as u64,
                width: shape.width as u32,
                height: shape.height as u32,
                stride: shape.stride as u32,
            });
        }
        place += chunk.encode().len();
    }
    None
}

/// The listing that the plan makes.
fn listing(sound: &Sound) -> String {
    let tiles = sound.entries.iter().map(|e| sound.tile(e));
    let full: Vec<_> = tiles.filter(|t| !t.is_pyramid_tile()).collect();
    let end = |d: &generate::Dimension| i64::from(d.start) + i64::from(d.size);
    let edges = [
        full.iter().map(|t| t.x().start.into()).min(),
        full.iter().map(|t| t.y().start.into()).min(),
        full.iter().map(|t| end(t.x())).max(),
        full.iter().map(|t| end(t.y())).max(),
    ];
    let figures: Vec<String> = edges.iter().flatten().map(i64::to_string).collect();
    let lines = [
        format!("bytes={}", sound.bytes.len()),
        format!("segments={}", sound.segments.len()),
        format!("tiles={}", sound.entries.len()),
        format!("attachments={}", sound.attachments.len()),
        match figures.is_empty() {
            true => "box=none".to_string(),
            false => format!("box={}", figures.join(",")),
        },
    ];
    lines.map(|line| line + "\n").concat()
}

/// Files at a limit are accepted; inputs over 65,536 bytes are not listed.
pub fn check_limits(sound: &Sound, random: &mut Random, report: &mut Report) {
    for limit in LIMITS {
        let Some(bytes) = limit.reach(sound, random) else {
            continue;
        };
        let accepted = Release::ALL.map(|release| judge(&bytes, release).is_ok());
        match accepted {
            [true, true] => report.limits.add(limit.name),
            _ => report.differs(format!("{}: accepted: {accepted:?}", limit.name)),
        }
        for release in Release::ALL {
            let is_listed = list(&bytes, release).starts_with("bytes=");
            report.compare(limit.name, is_listed, bytes.len() <= 65_536);
        }
    }
    for clause in LISTING_CLAUSES {
        let Some(bytes) = clause.reach(sound, random) else {
            continue;
        };
        let is_30 = |release| list(&bytes, release) == "refused=30\nplace=0\n";
        if Release::ALL.into_iter().all(is_30) {
            report.clauses.add(clause.name);
        } else {
            report.differs(clause.name);
        }
    }
}
