//! The reader: listing, figures, records and parts, under both releases.

use crate::read::{without_mask, Read};
use crate::report::Report;
use crate::tables;
use czi::calls::{
    self, Answer, AttachmentRecord, DimensionRecord, Figures, Span, Text, TileRecord, TEXT,
};
use generate::ask::{Request, REQUEST_CLAUSES};
use generate::{Random, Sound};
use reference::{list, Attachment, Dimension, File, Refusal, Release, Summary, Tile, View};
use std::fmt::Debug;

/// Of a file with more entries, so many of the first are asked for, and the last.
const MOST_ASKED: u64 = 24;

/// Of a file that is longer than this, fewer: each answer judges all of it.
const LONG: usize = 65_536;
const FEWER_ASKED: u64 = 2;

/// Everything that a reader is asked of the file at hand, but the verdict.
pub fn check(read: &Read, report: &mut Report) {
    let bytes = read.bytes;
    check_answer(
        read,
        || "list".into(),
        |release| calls::list(bytes, release),
        |release, _| text(&list(bytes, release)),
        report,
    );
    check_answer(
        read,
        || "summary".into(),
        |release| calls::summary(bytes, release),
        |_, file| answer(file.map(|f| figures(&f.summary())), NO_FIGURES),
        report,
    );
    check_answer(
        read,
        || "common XML".into(),
        |release| calls::common_xml(bytes, release),
        |_, file| part(file.map(|f| f.xml)),
        report,
    );
    check_answer(
        read,
        || "common attachment".into(),
        |release| calls::common_attachment(bytes, release),
        |_, file| part(file.map(|f| f.xml_attachment)),
        report,
    );
    tables::check(read, report);

    let (tiles, attachments) = read.widest().map_or((0, 0), |f| {
        (f.tiles.len() as u64, f.attachments.len() as u64)
    });
    let most = match bytes.len() {
        ..LONG => MOST_ASKED,
        _ => FEWER_ASKED,
    };
    for entry in asked(tiles, most) {
        check_tile(read, entry, report);
    }
    for entry in asked(attachments, most) {
        check_request(read, Request::Attachment(entry), report);
        check_request(read, Request::AttachmentData(entry), report);
    }
    report.check_unchanged(bytes);
}

/// The numbers that are asked for, with the one past the last.
fn asked(count: u64, most: u64) -> impl Iterator<Item = u64> {
    let first = 0..count.min(most);
    let last = count.saturating_sub(1).max(first.end)..count + 1;
    first.chain(last)
}

fn check_tile(read: &Read, entry: u64, report: &mut Report) {
    check_request(read, Request::Tile(entry), report);
    check_request(read, Request::TilePixels(entry), report);
    check_request(read, Request::TileMetadata(entry), report);
    check_request(read, Request::TileAttachment(entry), report);
    let tile = read.widest().and_then(|f| f.tile(entry).ok());
    let count = tile.map_or(0, |t| t.dimensions.len() as u64);
    for k in 0..=count {
        check_request(read, Request::Dimension(entry, k), report);
    }
}

/// What the library answers under each release against what the reference does, and
/// both against each other.
fn check_answer<T: PartialEq + Debug>(
    read: &Read,
    what: impl Fn() -> String,
    call: impl FnMut(u32) -> T,
    wanted: impl Fn(Release, Result<&File, Refusal>) -> T,
    report: &mut Report,
) {
    let got = report.of_each(call);
    compare_each(read, &what, &got, wanted, report);
    read.hold_alike(what, &got, report);
}

/// What the library answers under each release against what the reference does.
fn compare_each<T: PartialEq + Debug>(
    read: &Read,
    what: impl Fn() -> String,
    got: &[T; 2],
    wanted: impl Fn(Release, Result<&File, Refusal>) -> T,
    report: &mut Report,
) {
    for (release, got) in Release::ALL.into_iter().zip(got) {
        let wanted = wanted(release, read.under(release));
        report.compare_under(release, &what, got, &wanted);
    }
}

/// One request for a record or a part. Answers the reference's refusals.
pub fn check_request(read: &Read, request: Request, report: &mut Report) -> [Option<Refusal>; 2] {
    let bytes = read.bytes;
    let what = || format!("{request:?}");
    match request {
        Request::Tile(entry) => {
            let call = |release| {
                let mut record = LENT_TILE;
                (calls::tile(bytes, release, entry, &mut record), record)
            };
            let got = report.of_each(call);
            let wanted = |_, file: Result<&File, Refusal>| {
                let tile = file.and_then(|f| f.tile(entry));
                (answer(tile.map(|_| ()), ()), tile.map_or(LENT_TILE, record))
            };
            compare_each(read, what, &got, wanted, report);
            // Under 1.02 it is the same record, and there is no mask.
            let [(told, newer), older] = got;
            let newer = match told.number {
                0 => without_mask(newer),
                _ => newer,
            };
            read.hold_alike(what, &[(told, newer), older], report);
            refused(read, |f| f.tile(entry).map(|_| ()))
        }
        Request::Dimension(entry, k) => {
            let call = |release| calls::dimension(bytes, release, entry, k);
            let wanted = |_, file: Result<&File, Refusal>| {
                let dimension = file.and_then(|f| f.dimension(entry, k));
                answer(dimension.map(dimension_record), NO_DIMENSION)
            };
            check_answer(read, what, call, wanted, report);
            refused(read, |f| f.dimension(entry, k).map(|_| ()))
        }
        Request::TilePixels(entry) => {
            let call = |release| calls::tile_pixels(bytes, release, entry);
            check_view(read, request, call, |f| f.tile_pixels(entry), report)
        }
        Request::TileMetadata(entry) => {
            let call = |release| calls::tile_metadata(bytes, release, entry);
            check_view(read, request, call, |f| f.tile_metadata(entry), report)
        }
        Request::TileAttachment(entry) => {
            let call = |release| calls::tile_attachment(bytes, release, entry);
            check_view(read, request, call, |f| f.tile_attachment(entry), report)
        }
        Request::Attachment(entry) => {
            let call = |release| {
                let mut record = LENT_ATTACHMENT;
                (
                    calls::attachment(bytes, release, entry, &mut record),
                    record,
                )
            };
            let wanted = |_, file: Result<&File, Refusal>| {
                let attachment = file.and_then(|f| f.attachment(entry));
                let record = attachment.map_or(LENT_ATTACHMENT, attachment_record);
                (part(attachment.map(|a| a.data)), record)
            };
            check_answer(read, what, call, wanted, report);
            refused(read, |f| f.attachment(entry).map(|_| ()))
        }
        Request::AttachmentData(entry) => {
            let call = |release| calls::attachment_data(bytes, release, entry);
            check_view(read, request, call, |f| f.attachment_data(entry), report)
        }
    }
}

/// One request for a part.
fn check_view(
    read: &Read,
    request: Request,
    call: impl FnMut(u32) -> Answer<Span>,
    view: impl Fn(&File) -> Result<View, Refusal>,
    report: &mut Report,
) -> [Option<Refusal>; 2] {
    let wanted = |_, file: Result<&File, Refusal>| part(file.and_then(&view));
    check_answer(read, || format!("{request:?}"), call, wanted, report);
    refused(read, |f| view(f).map(|_| ()))
}

/// The reference's refusals of a request.
fn refused(read: &Read, request: impl Fn(&File) -> Result<(), Refusal>) -> [Option<Refusal>; 2] {
    Release::ALL.map(|release| read.under(release).and_then(&request).err())
}

/// Requests for what the file does not have.
pub fn check_requests(read: &Read, sound: &Sound, random: &mut Random, report: &mut Report) {
    for clause in REQUEST_CLAUSES {
        if let Some(request) = clause.draw(sound, random) {
            let refusals = check_request(read, request, report);
            if report.compare(clause.name, &refusals, &[Some(Refusal::new(24, 0)); 2]) {
                report.clauses.add(clause.name);
            }
        }
    }
}

const NO_PART: Span = Span {
    start: 0,
    length: 0,
};

/// What a lent record holds before a call, and after one that is refused.
const LENT_TILE: TileRecord = TileRecord {
    numbers: [0xC3C3_C3C3_C3C3_C3C3; calls::TILE_NUMBERS],
    starts: [0x3C3C_3C3C; calls::TILE_STARTS],
};

const LENT_ATTACHMENT: AttachmentRecord = AttachmentRecord {
    guid: [0xC3; calls::ATTACHMENT_GUID],
    file_type: [0x3C; calls::ATTACHMENT_FILE_TYPE],
    name: [0x5A; calls::ATTACHMENT_NAME],
};

const NO_DIMENSION: DimensionRecord = DimensionRecord {
    letter: 0,
    start: 0,
    size: 0,
    coordinate_bits: 0,
    stored: 0,
};

const NO_FIGURES: Figures = Figures {
    bytes: 0,
    segments: 0,
    tiles: 0,
    attachments: 0,
    has_box: 0,
    corners: [0; 4],
};

/// The answer that the header says: all is 0 where refused.
pub fn answer<T>(result: Result<T, Refusal>, nothing: T) -> Answer<T> {
    match result {
        Ok(value) => Answer {
            number: 0,
            place: 0,
            value,
        },
        Err(refusal) => Answer {
            number: refusal.number,
            place: refusal.place,
            value: nothing,
        },
    }
}

fn part(view: Result<View, Refusal>) -> Answer<Span> {
    let span = view.map(|v| Span {
        start: v.start,
        length: v.length,
    });
    answer(span, NO_PART)
}

fn text(lines: &str) -> Text {
    let mut bytes = [0; TEXT];
    bytes[..lines.len()].copy_from_slice(lines.as_bytes());
    Text {
        length: lines.len() as u64,
        bytes,
    }
}

fn figures(summary: &Summary) -> Figures {
    let corner = |n: i64| i32::try_from(n).expect("edges are at most 2,147,483,647");
    Figures {
        bytes: summary.bytes,
        segments: summary.segments,
        tiles: summary.tiles,
        attachments: summary.attachments,
        has_box: summary.edges.is_some().into(),
        corners: summary
            .edges
            .map_or([0; 4], |e| [e.left, e.top, e.right, e.bottom].map(corner)),
    }
}

/// The record as the header has it.
pub fn record(tile: &Tile) -> TileRecord {
    let (mask, layers) = (tile.mask, tile.layers);
    let [place, width, height, stride] = mask.map_or([0; 4], |m| {
        [m.place, m.width.into(), m.height.into(), m.stride.into()]
    });
    TileRecord {
        numbers: [
            tile.number,
            tile.place,
            tile.pixel_type.into(),
            tile.file_position,
            tile.pyramid.into(),
            tile.dimensions.len() as u64,
            tile.x.size as u64,
            tile.x.stored as u64,
            tile.y.size as u64,
            tile.y.stored as u64,
            tile.m.is_some().into(),
            tile.metadata.start,
            tile.metadata.length,
            tile.pixels.start,
            tile.pixels.length,
            tile.attachment.start,
            tile.attachment.length,
            mask.is_some().into(),
            place,
            width,
            height,
            stride,
            layers.map_or(0, |l| l.letter.into()),
            layers.map_or(0, |l| l.size as u64),
        ],
        starts: [
            tile.x.start,
            tile.y.start,
            tile.m.unwrap_or(0),
            layers.map_or(0, |l| l.start),
        ],
    }
}

fn attachment_record(attachment: &Attachment) -> AttachmentRecord {
    AttachmentRecord {
        guid: attachment.content_guid,
        file_type: attachment.file_type,
        name: attachment.name,
    }
}

/// The record as the header has it.
pub fn dimension_record(d: &Dimension) -> DimensionRecord {
    DimensionRecord {
        letter: d.letter.into(),
        start: d.start,
        size: d.size as u64,
        coordinate_bits: d.coordinate_bits,
        stored: d.stored as u64,
    }
}
