//! The command `info`: the figures of a file, and what explains a count.

use crate::answer::Answer;
use crate::arguments::{Arguments, Takes};
use crate::failure::Failure;
use crate::input::Input;
use crate::records::starts;
use crate::words::quoted;
use crate::{release, types};
use czi::{Attachment, Edges, Record, Release, Scan, Summary};
use std::collections::BTreeMap;
use std::ffi::OsString;

const TAKES: Takes = Takes {
    flags: &["--json"],
    values: &[release::OPTION],
    many: &[],
};

/// Answers the lines, or the same as JSON.
pub fn run(words: Vec<OsString>) -> Result<Answer, Failure> {
    let arguments = Arguments::parse(words, &TAKES)?;
    let release = release::parse(&arguments)?;
    let input = Input::open(&arguments.only_path("FILE")?)?;
    let info = input.reading(|file| Info::of(Scan::new(file).release(release)))?;
    Ok(Answer::lines(match arguments.flag("--json") {
        false => info.lines(),
        true => info.json(),
    }))
}

/// The tiles of a scene, how many of them are pyramid tiles, and the box over those
/// that are none.
#[derive(Default)]
struct Scene {
    tiles: u64,
    pyramid_tiles: u64,
    edges: Option<Edges>,
}

/// The least and the greatest start of a letter, those of layers too, how many tiles
/// have it, and how many of these have layers along it.
struct Range {
    least: i32,
    greatest: i32,
    tiles: u64,
    layered_tiles: u64,
}

struct Info {
    summary: Summary,
    /// By which the file was judged.
    release: Release,
    /// Types in the order of the directory, and how many tiles have each.
    types: Vec<(&'static str, u64)>,
    pyramid_tiles: usize,
    masked_tiles: usize,
    /// By the start of S. Where no tile has S there are none.
    scenes: BTreeMap<i32, Scene>,
    /// Of each letter but X and Y.
    letters: BTreeMap<char, Range>,
    attachments: Vec<Attachment>,
}

impl Info {
    fn of(scan: Scan) -> Result<Info, Failure> {
        let summary = czi::summary(scan)?;
        let all: Vec<Record> = czi::all_records(scan)?.collect();
        let pyramid = |record: &&Record| record.tile.is_pyramid_tile();
        Ok(Info {
            types: types_of(&all),
            pyramid_tiles: all.iter().filter(pyramid).count(),
            masked_tiles: all.iter().filter(|r| r.tile.mask.is_some()).count(),
            scenes: scenes_of(&all),
            letters: letters_of(&all),
            attachments: czi::attachments(scan)?,
            release: scan.release,
            summary,
        })
    }

    fn lines(&self) -> String {
        let Summary {
            bytes,
            segments,
            tiles,
            attachments,
            edges,
        } = &self.summary;
        let mut lines = format!(
            "bytes={bytes}\nsegments={segments}\ntiles={tiles}\nattachments={attachments}\nbox={}\n",
            said(edges)
        );
        lines += &format!("release={}\n", self.release);
        lines += &format!("pyramid_tiles={}\n", self.pyramid_tiles);
        lines += &format!("masked_tiles={}\n", self.masked_tiles);
        for (name, tiles) in &self.types {
            lines += &format!("type={name} tiles={tiles}\n");
        }
        for (scene, of) in &self.scenes {
            let (tiles, pyramid_tiles, edges) = (of.tiles, of.pyramid_tiles, said(&of.edges));
            lines +=
                &format!("scene={scene} tiles={tiles} pyramid_tiles={pyramid_tiles} box={edges}\n");
        }
        for (letter, range) in &self.letters {
            let Range {
                least,
                greatest,
                tiles,
                layered_tiles,
            } = range;
            lines += &format!(
                "letter={letter} tiles={tiles} least={least} greatest={greatest} layered_tiles={layered_tiles}\n"
            );
        }
        for attachment in &self.attachments {
            lines += &format!(
                "attachment={} bytes={} guid={} type={} name={}\n",
                attachment.entry,
                attachment.data.len(),
                attachment.guid_text(),
                quoted(&attachment.file_type_text()),
                quoted(&attachment.name_text()),
            );
        }
        lines
    }

    /// The same; names of releases, types, letters and GUIDs need no escapes.
    fn json(&self) -> String {
        let types = self.types.iter();
        let types = types.map(|(name, tiles)| format!("{{\"type\":\"{name}\",\"tiles\":{tiles}}}"));
        let scenes = self.scenes.iter().map(|(scene, of)| {
            let (tiles, pyramid_tiles, edges) = (of.tiles, of.pyramid_tiles, object(&of.edges));
            format!(
                "{{\"scene\":{scene},\"tiles\":{tiles},\"pyramid_tiles\":{pyramid_tiles},\"box\":{edges}}}"
            )
        });
        let letters = self.letters.iter().map(|(letter, range)| {
            let Range {
                least,
                greatest,
                tiles,
                layered_tiles,
            } = range;
            format!(
                "{{\"letter\":\"{letter}\",\"tiles\":{tiles},\"least\":{least},\"greatest\":{greatest},\
                 \"layered_tiles\":{layered_tiles}}}"
            )
        });
        let attachments = self.attachments.iter().map(|attachment| {
            format!(
                "{{\"attachment\":{},\"bytes\":{},\"type\":{},\"guid\":\"{}\",\"name\":{}}}",
                attachment.entry,
                attachment.data.len(),
                quoted(&attachment.file_type_text()),
                attachment.guid_text(),
                quoted(&attachment.name_text()),
            )
        });
        let Summary {
            bytes,
            segments,
            tiles,
            edges,
            ..
        } = &self.summary;
        let fields = [
            ("bytes", bytes.to_string()),
            ("segments", segments.to_string()),
            ("tiles", tiles.to_string()),
            ("box", object(edges)),
            ("release", format!("\"{}\"", self.release)),
            ("pyramid_tiles", self.pyramid_tiles.to_string()),
            ("masked_tiles", self.masked_tiles.to_string()),
            ("types", array(types)),
            ("scenes", array(scenes)),
            ("letters", array(letters)),
            ("attachments", array(attachments)),
        ];
        let fields: Vec<String> = fields.iter().map(|(k, v)| format!("\"{k}\":{v}")).collect();
        format!("{{{}}}\n", fields.join(",\n"))
    }
}

fn said(edges: &Option<Edges>) -> String {
    match edges {
        None => "none".to_string(),
        Some(e) => format!("{},{},{},{}", e.left, e.top, e.right, e.bottom),
    }
}

fn object(edges: &Option<Edges>) -> String {
    match edges {
        None => "null".to_string(),
        Some(e) => format!(
            "{{\"left\":{},\"top\":{},\"right\":{},\"bottom\":{}}}",
            e.left, e.top, e.right, e.bottom
        ),
    }
}

fn array(items: impl Iterator<Item = String>) -> String {
    format!("[{}]", items.collect::<Vec<_>>().join(","))
}

fn types_of(all: &[Record]) -> Vec<(&'static str, u64)> {
    let mut types: Vec<(&str, u64)> = Vec::new();
    for record in all {
        let name = types::name(record.tile.pixel_type);
        match types.iter_mut().find(|(other, _)| *other == name) {
            Some((_, tiles)) => *tiles += 1,
            None => types.push((name, 1)),
        }
    }
    types
}

fn scene_of(record: &Record) -> Option<i32> {
    let found = starts(record).find(|(letter, _)| *letter == 'S');
    found.map(|(_, start)| start)
}

/// A tile without S counts to scene 0, as it is selected there.
fn scenes_of(all: &[Record]) -> BTreeMap<i32, Scene> {
    let mut scenes: BTreeMap<i32, Scene> = BTreeMap::new();
    if all.iter().all(|record| scene_of(record).is_none()) {
        return scenes;
    }
    for record in all {
        let scene = scenes.entry(scene_of(record).unwrap_or(0)).or_default();
        scene.tiles += 1;
        if record.tile.is_pyramid_tile() {
            scene.pyramid_tiles += 1;
        } else {
            let own = edges_of(&record.tile);
            scene.edges = Some(scene.edges.map_or(own, |edges| joined(&edges, &own)));
        }
    }
    scenes
}

/// In an accepted file start plus size fits.
fn edges_of(tile: &czi::Tile) -> Edges {
    let end = |extent: &czi::Extent| (i64::from(extent.start) + extent.size as i64) as i32;
    Edges {
        left: tile.x.start,
        top: tile.y.start,
        right: end(&tile.x),
        bottom: end(&tile.y),
    }
}

fn joined(one: &Edges, other: &Edges) -> Edges {
    Edges {
        left: one.left.min(other.left),
        top: one.top.min(other.top),
        right: one.right.max(other.right),
        bottom: one.bottom.max(other.bottom),
    }
}

fn letters_of(all: &[Record]) -> BTreeMap<char, Range> {
    let mut letters: BTreeMap<char, Range> = BTreeMap::new();
    for record in all {
        let m = record.tile.m.map(|start| ('M', start));
        for (letter, start) in starts(record).chain(m) {
            let layers = record.tile.layers.filter(|layers| layers.letter == letter);
            let last = layers.map_or(start, |layers| layers.last());
            let range = letters.entry(letter).or_insert(Range {
                least: start,
                greatest: last,
                tiles: 0,
                layered_tiles: 0,
            });
            range.least = range.least.min(start);
            range.greatest = range.greatest.max(last);
            range.tiles += 1;
            range.layered_tiles += u64::from(layers.is_some());
        }
    }
    letters
}
