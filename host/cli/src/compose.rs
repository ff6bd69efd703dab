//! The command `compose`: a plane and its map, composed by rows of windows so that
//! the memory does not grow with the plane. Each part shows what the whole window
//! shows there: demand 3.

use crate::answer::{finish, is_standard, Answer, Sink};
use crate::arguments::{choose, Arguments, Takes};
use crate::failure::Failure;
use crate::input::Input;
use crate::outputs::{look, Output};
use crate::plane::Plane;
use crate::question::Question;
use crate::window::{Cut, Window};
use crate::{memory, pbm, release, streams, types};
use czi::calls::{self, Counted, Plain};
use czi::Scan;
use std::ffi::OsString;
use std::path::{Path, PathBuf};

const TAKES: Takes = Takes {
    flags: &["--force"],
    values: &[
        "--window",
        "--type",
        "--scene",
        "--masks",
        release::OPTION,
        "--background",
        "--composer",
        "--out",
        "--map",
    ],
    many: &["--start"],
};

/// Which composers run.
#[derive(Clone, Copy, PartialEq, Eq)]
enum Composer {
    Plain,
    Quick,
    Both,
}

/// Where plane and map go.
struct Places {
    out: Option<PathBuf>,
    map: Option<PathBuf>,
    files: Vec<Output>,
}

/// Composes and answers plane, map and lines.
pub fn run(words: Vec<OsString>) -> Result<Answer, Failure> {
    let arguments = Arguments::parse(words, &TAKES)?;
    let question = Question::parse(&arguments)?;
    let release = release::parse(&arguments)?;
    let composer = composer(&arguments)?;
    let (out, map) = (arguments.path("--out"), arguments.path("--map"));
    let given: Vec<&Path> = out.iter().chain(&map).map(PathBuf::as_path).collect();
    match given.iter().filter(|path| is_standard(path)).count() {
        0 => {}
        // The lines go there.
        1 => drop(streams::error()?),
        _ => return Err(Failure::Usage("--out and --map are both -".to_string())),
    }
    let path = arguments.only_path("FILE")?;
    let input = Input::open(&path)?;
    let files: Vec<&Path> = given
        .into_iter()
        .filter(|path| !is_standard(path))
        .collect();
    let files = look(&files, arguments.flag("--force"), &input.identity())?;
    let places = Places { out, map, files };
    let (sinks, lines) = input.reading(|file| {
        let plane = Plane::new(Scan::new(file).release(release), &question, false)?;
        compose(&plane, composer, &places)
    })?;
    finish(sinks, lines)
}

fn composer(arguments: &Arguments) -> Result<Composer, Failure> {
    let all = [
        ("plain", Composer::Plain),
        ("quick", Composer::Quick),
        ("both", Composer::Both),
    ];
    match arguments.text("--composer")? {
        None => Ok(Composer::Quick),
        Some(word) => choose(word, "--composer", &all),
    }
}

/// The outputs and the lines.
fn compose(
    plane: &Plane,
    composer: Composer,
    places: &Places,
) -> Result<(Vec<Sink>, String), Failure> {
    let (window, pixel_type) = plane.whole()?;
    let (sinks, sums) = paint(plane, window, pixel_type, composer, places)
        .map_err(|failure| plane.explained(window, pixel_type, failure))?;
    let stored = match composer {
        Composer::Both => format!(
            "stored={} plain, {} quick\nboth composers agree",
            sums.plain, sums.quick
        ),
        Composer::Plain => format!("stored={}", sums.plain),
        Composer::Quick => format!("stored={}", sums.quick),
    };
    let (pixels, covered) = (window.pixels(), sums.covered);
    let chosen = plane.chosen(Some(pixel_type));
    let lines = format!("pixels={pixels}\ncovered={covered}\n{stored}\n{chosen}");
    Ok((sinks, lines))
}

/// The counts of the parts, added.
#[derive(Default)]
struct Sums {
    covered: u64,
    plain: u64,
    quick: u64,
}

/// Plane and map of the whole window, part by part.
fn paint(
    plane: &Plane,
    window: Window,
    pixel_type: u32,
    composer: Composer,
    places: &Places,
) -> Result<(Vec<Sink>, Sums), Failure> {
    let bytes = types::bytes(pixel_type);
    let header = pbm::header(window.width, window.height);
    let line = u64::from(window.width.div_ceil(8));
    let picture = header.len() as u64 + line * u64::from(window.height);
    let mut files = places.files.iter();
    let mut out = Sink::begin(
        places.out.as_deref(),
        &mut files,
        window.pixels() * bytes as u64,
    )?;
    let mut map = Sink::begin(places.map.as_deref(), &mut files, picture)?;
    map.write(&header)?;
    let shares = if composer == Composer::Both { 2 } else { 1 };
    let cut = Cut::rows(window, memory::pixels(memory::MOST / shares, bytes));
    let background = plane.background(pixel_type);
    let mut sums = Sums::default();
    let size = u64::from(cut.width) * u64::from(cut.height);
    let mut buffers = Buffers::new(size, bytes)?;
    let mut others = match composer {
        Composer::Both => Some(Buffers::new(size, bytes)?),
        _ => None,
    };
    for number in 0..cut.parts() {
        let part = cut.part(number);
        let question = plane.plain(part, pixel_type, &background);
        if composer != Composer::Quick {
            let counted = buffers.compose(plane, &question, calls::compose_plain)?;
            sums.plain += counted.stored;
            sums.covered += counted.covered;
        }
        if composer == Composer::Quick {
            let counted = buffers.compose(plane, &question, calls::compose_quick)?;
            sums.quick += counted.stored;
            sums.covered += counted.covered;
        }
        if let Some(others) = &mut others {
            let counted = others.compose(plane, &question, calls::compose_quick)?;
            sums.quick += counted.stored;
            if buffers != *others {
                return Err(Failure::Other("the composers do not agree".to_string()));
            }
        }
        let pixels = part.pixels();
        out.write(&buffers.target[..pixels as usize * bytes])?;
        let rows = part.height as usize;
        pbm::rows(&buffers.map, part.width as usize, rows, |row| {
            map.write(row)
        })?;
    }
    Ok((vec![out, map], sums))
}

type Call = fn(&[u8], u32, &Plain, &mut [u8], &mut [u8]) -> calls::Answer<Counted>;

/// Target and map for one part, and what was covered of it.
#[derive(PartialEq, Eq)]
struct Buffers {
    target: Vec<u8>,
    map: Vec<u8>,
    covered: u64,
}

impl Buffers {
    fn new(pixels: u64, bytes: usize) -> Result<Buffers, Failure> {
        Ok(Buffers {
            target: memory::zeros(pixels * bytes as u64)?,
            map: memory::zeros(pixels.div_ceil(8))?,
            covered: 0,
        })
    }

    fn compose(&mut self, plane: &Plane, question: &Plain, call: Call) -> Result<Counted, Failure> {
        let (file, release) = plane.lent();
        let counted = call(file, release, question, &mut self.target, &mut self.map).result()?;
        self.covered = counted.covered;
        Ok(counted)
    }
}
