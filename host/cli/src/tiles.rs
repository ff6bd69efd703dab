//! The command `tiles`: a line a tile.

use crate::answer::Answer;
use crate::arguments::{Arguments, Takes};
use crate::failure::Failure;
use crate::input::Input;
use crate::records::starts;
use crate::{release, types};
use czi::{Record, Release, Scan};
use std::ffi::OsString;

const TAKES: Takes = Takes {
    flags: &["--json"],
    values: &[release::OPTION],
    many: &[],
};

/// Answers the lines, or the same as JSON.
pub fn run(words: Vec<OsString>) -> Result<Answer, Failure> {
    let arguments = Arguments::parse(words, &TAKES)?;
    let release = release::parse(&arguments)?;
    let input = Input::open(&arguments.only_path("FILE")?)?;
    let all: Vec<Record> = input.reading(|file| {
        let scan = Scan::new(file).release(release);
        Ok(czi::all_records(scan)?.collect())
    })?;
    let lines = match arguments.flag("--json") {
        false => all.iter().map(line).collect(),
        true => {
            let objects: Vec<String> = all.iter().map(|record| object(record, release)).collect();
            format!("[{}]\n", objects.join(",\n"))
        }
    };
    Ok(Answer::lines(lines))
}

fn line(record: &Record) -> String {
    let tile = &record.tile;
    let m = tile.m.map_or("none".to_string(), |m| m.to_string());
    let start = |(letter, start)| match &tile.layers {
        Some(layers) if layers.letter == letter => format!(" {letter}={start}..{}", layers.last()),
        _ => format!(" {letter}={start}"),
    };
    let starts: String = starts(record).map(start).collect();
    let pyramid = if tile.is_pyramid_tile() { "yes" } else { "no" };
    let mask = match &tile.mask {
        None => "none".to_string(),
        Some(mask) => format!("{}x{}", mask.width, mask.height),
    };
    format!(
        "tile={} type={} x={} y={} width={} height={} m={m}{starts} pyramid={pyramid} mask={mask}\n",
        tile.entry,
        types::name(tile.pixel_type),
        tile.x.start,
        tile.y.start,
        tile.x.size,
        tile.y.size,
    )
}

/// The same, and the release; names and letters need no escapes.
fn object(record: &Record, release: Release) -> String {
    let tile = &record.tile;
    let m = tile.m.map_or("null".to_string(), |m| m.to_string());
    let starts: Vec<String> = starts(record)
        .map(|(l, s)| format!("\"{l}\":{s}"))
        .collect();
    let layers = match &tile.layers {
        None => "null".to_string(),
        Some(layers) => format!(
            "{{\"letter\":\"{}\",\"start\":{},\"size\":{}}}",
            layers.letter, layers.start, layers.size
        ),
    };
    let mask = match &tile.mask {
        None => "null".to_string(),
        Some(mask) => format!("{{\"width\":{},\"height\":{}}}", mask.width, mask.height),
    };
    format!(
        "{{\"tile\":{},\"type\":\"{}\",\"x\":{},\"y\":{},\"width\":{},\"height\":{},\"m\":{m},\
         \"starts\":{{{}}},\"layers\":{layers},\"pyramid\":{},\"mask\":{mask},\
         \"release\":\"{release}\"}}",
        tile.entry,
        types::name(tile.pixel_type),
        tile.x.start,
        tile.y.start,
        tile.x.size,
        tile.y.size,
        starts.join(","),
        tile.is_pyramid_tile(),
    )
}
