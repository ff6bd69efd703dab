//! The command `extract`: the very bytes of a part of the file.

use crate::answer::{finish, is_standard, Answer, Sink};
use crate::arguments::{number, Arguments, Takes};
use crate::failure::Failure;
use crate::input::Input;
use crate::outputs::look;
use crate::{release, streams};
use czi::{Refusal, Scan};
use std::ffi::OsString;
use std::path::Path;

const TAKES: Takes = Takes {
    flags: &[
        "--pixels",
        "--metadata",
        "--tile-attachment",
        "--xml",
        "--xml-attachment",
        "--force",
    ],
    values: &["--tile", "--attachment", "--out", release::OPTION],
    many: &[],
};

/// A part of the file.
enum Part {
    Pixels(u64),
    Metadata(u64),
    TileAttachment(u64),
    Xml,
    XmlAttachment,
    Attachment(u64),
}

/// Extracts and answers the bytes, and how many they are.
pub fn run(words: Vec<OsString>) -> Result<Answer, Failure> {
    let arguments = Arguments::parse(words, &TAKES)?;
    let part = Part::parse(&arguments)?;
    let release = release::parse(&arguments)?;
    let missing = || Failure::Usage("--out is missing".to_string());
    let out = arguments.path("--out").ok_or_else(missing)?;
    let input = Input::open(&arguments.only_path("FILE")?)?;
    let files: Vec<&Path> = match is_standard(&out) {
        true => {
            streams::error()?;
            Vec::new()
        }
        false => vec![&out],
    };
    let files = look(&files, arguments.flag("--force"), &input.identity())?;
    let (sink, lines) = input.reading(|file| {
        let bytes = part.of(Scan::new(file).release(release))?;
        let mut sink = Sink::begin(Some(&out), &mut files.iter(), bytes.len() as u64)?;
        sink.write(bytes)?;
        Ok((sink, format!("bytes={}\n", bytes.len())))
    })?;
    finish(vec![sink], lines)
}

impl Part {
    fn parse(arguments: &Arguments) -> Result<Part, Failure> {
        let entry = |name: &str| match arguments.text(name)? {
            Some(word) => number(word, name).map(Some),
            None => Ok(None),
        };
        let flags = TAKES.flags.iter().filter(|flag| **flag != "--force");
        let given: Vec<&str> = flags.filter(|flag| arguments.flag(flag)).copied().collect();
        match (entry("--tile")?, entry("--attachment")?, &given[..]) {
            (Some(tile), None, ["--pixels"]) => Ok(Part::Pixels(tile)),
            (Some(tile), None, ["--metadata"]) => Ok(Part::Metadata(tile)),
            (Some(tile), None, ["--tile-attachment"]) => Ok(Part::TileAttachment(tile)),
            (None, None, ["--xml"]) => Ok(Part::Xml),
            (None, None, ["--xml-attachment"]) => Ok(Part::XmlAttachment),
            (None, Some(attachment), []) => Ok(Part::Attachment(attachment)),
            _ => {
                let what = "one part is wanted: --tile N with --pixels, --metadata or \
                            --tile-attachment, or --xml, --xml-attachment or --attachment N";
                Err(Failure::Usage(what.to_string()))
            }
        }
    }

    fn of<'a>(&self, scan: Scan<'a>) -> Result<&'a [u8], Refusal> {
        match *self {
            Part::Pixels(tile) => czi::tile_pixels(scan, tile),
            Part::Metadata(tile) => czi::tile_metadata(scan, tile),
            Part::TileAttachment(tile) => czi::tile_attachment(scan, tile),
            Part::Xml => czi::common_xml(scan),
            Part::XmlAttachment => czi::common_attachment(scan),
            Part::Attachment(attachment) => czi::attachment_data(scan, attachment),
        }
    }
}
