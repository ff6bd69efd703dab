//! Lines for reading.py: files, most of them with layers, each with a question and its plane.

use crate::settings::hex;
use generate::ask::{ask_clauses, draw, Ask};
use generate::damage::clauses;
use generate::{sound, Random, Sound};
use reference::{judge, File, Question, Refusal, Release};
use std::io::{self, Write};

/// Of a hundred files without layers so many are written.
const FLAT: u64 = 25;

/// Of a hundred files so many are damaged, and of a hundred questions so many spoiled.
const DAMAGED: u64 = 15;
const SPOILED: u64 = 10;

/// Writes so many files, each in a line: the release, the file, the question, and what the
/// reference says of them. Buffers are as long as the question needs them.
pub fn write(first: u64, planes: u64) -> io::Result<()> {
    let mut out = io::BufWriter::new(io::stdout().lock());
    let mut left = planes;
    for seed in first.. {
        if left == 0 {
            break;
        }
        let sound = sound(seed);
        let random = &mut Random::new(seed ^ 0x71A4_E5ED_5EED_0010);
        let has_layers = sound.tiles.iter().any(|tile| tile.layered().is_some());
        if has_layers || random.percent(FLAT) {
            write_one(&mut out, &sound, random)?;
            left -= 1;
        }
    }
    out.flush()
}

fn write_one(out: &mut impl Write, sound: &Sound, random: &mut Random) -> io::Result<()> {
    let bytes = match random.percent(DAMAGED) {
        true => damaged(sound, random),
        false => sound.bytes.clone(),
    };
    let question = question(sound, random).question;
    let release = random.pick(&Release::ALL);
    let said = said(&bytes, release, &question);
    let release = match release {
        Release::V1_2 => "1.2",
        Release::V1_02 => "1.02",
    };
    let starts: Vec<String> = question.starts.iter().map(i32::to_string).collect();
    writeln!(
        out,
        "{release} 0x{} {} {} {} 0x{} {} {} {} {} {:?} 0x{}",
        hex(&bytes),
        starts.join(","),
        question.any_scene,
        question.pixel_type,
        hex(&question.background),
        question.left,
        question.top,
        question.width,
        question.height,
        question.masks,
        hex(said.as_bytes())
    )
}

/// The file with some damage to its layers, where it has any, or with another.
fn damaged(sound: &Sound, random: &mut Random) -> Vec<u8> {
    let (mut of_layers, mut others): (Vec<_>, Vec<_>) = clauses()
        .into_iter()
        .partition(|clause| clause.name.contains("layer"));
    random.shuffle(&mut of_layers);
    random.shuffle(&mut others);
    let mut all = of_layers.into_iter().chain(others);
    let damaged = all.find_map(|clause| clause.damage(sound, random));
    damaged.map_or(sound.bytes.clone(), |damaged| damaged.apply(sound))
}

/// A question, some of them refused by 20, 21 or 23.
fn question(sound: &Sound, random: &mut Random) -> Ask {
    let ask = draw(sound, random);
    let clause = &ask_clauses()[random.below(ask_clauses().len())];
    if clause.number == 22 || !random.percent(SPOILED) {
        return ask;
    }
    let spoiled = clause.spoil(sound, random, ask.clone());
    spoiled.unwrap_or(ask)
}

/// Of each tile its layers and the view of its pixels, then the plane; or the refusal.
fn said(bytes: &[u8], release: Release, question: &Question) -> String {
    let refused = |refusal: Refusal| {
        let Refusal { number, place } = refusal;
        format!("refused={number}\nplace={place}\n")
    };
    let file = match judge(bytes, release) {
        Ok(file) => file,
        Err(refusal) => return refused(refusal),
    };
    let mut said = String::new();
    for tile in &file.tiles {
        let (letter, start, size) = tile.layers.map_or(("none".into(), 0, 0), |layers| {
            (
                char::from(layers.letter).to_string(),
                layers.start,
                layers.size,
            )
        });
        let (at, length) = (tile.pixels.start, tile.pixels.length);
        said += &format!("layers={letter},{start},{size}\npixels={at},{length}\n");
    }
    said + &composed(&file, question).unwrap_or_else(refused)
}

fn composed(file: &File, question: &Question) -> Result<String, Refusal> {
    // A window that is refused needs no buffers.
    let pixels = question.pixels().min(1 << 20) as usize;
    let (mut target, mut map) = (
        vec![0; pixels * question.background.len()],
        vec![0; pixels.div_ceil(8)],
    );
    let counts = file.compose(question, &mut target, &mut map)?;
    Ok(format!(
        "covered={}\nstored={}\ntarget={}\nmap={}\n",
        counts.covered,
        counts.stored_plain,
        hex(&target),
        hex(&map)
    ))
}
