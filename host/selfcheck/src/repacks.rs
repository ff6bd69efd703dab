//! Repacks: the clean file of a sound one is that of its plan, is accepted, reads alike
//! and is its own clean file; files at the limits of 36; and lines for reading.py.

use crate::report::Report;
use crate::settings::hex;
use generate::damage::{behind_a_container, clauses, scramble};
use generate::{sound, Limit, Random, Sound, HUGE, REPACK_CLAUSES, REPACK_LIMITS};
use reference::{judge, File, Refusal, Release, View};
use std::io::{self, Write};

/// The clean file, by the reference.
fn clean(file: &File) -> Result<Vec<u8>, Refusal> {
    let mut out = vec![0x5A; file.repack_size()? as usize];
    file.repack(&mut out)?;
    Ok(out)
}

/// A sound file under both releases.
pub fn check(sound: &Sound, report: &mut Report) {
    let wanted = sound.clean();
    for release in Release::ALL {
        let (Ok(file), Ok(again)) = (judge(&sound.bytes, release), judge(&wanted, release)) else {
            return report.differs("the file or its clean file is refused");
        };
        report.repacks += 1;
        is_clean(clean(&file), &wanted, report);
        is_clean(clean(&again), &wanted, report);
        report.compare("the same but for places", said(&again), said(&file));
    }
}

fn is_clean(got: Result<Vec<u8>, Refusal>, wanted: &[u8], report: &mut Report) {
    match got {
        Ok(got) if got == wanted => {}
        Ok(got) => {
            let at = got.iter().zip(wanted).position(|(a, b)| a != b);
            let lengths = (got.len(), wanted.len());
            report.differs(format!(
                "the clean file differs at {at:?}, lengths {lengths:?}"
            ));
        }
        Err(refusal) => report.differs(format!("a repack is {refusal}")),
    }
}

/// All that a file says, places aside.
fn said<'a>(file: &'a File) -> Vec<(String, Vec<&'a [u8]>)> {
    let of = |view: View| view.of(file.bytes);
    let tiles = file.tiles.iter().map(|tile| {
        let parts = vec![of(tile.metadata), of(tile.pixels), of(tile.attachment)];
        let mask = tile.mask.map(|mask| {
            let place = mask.place - tile.attachment.start;
            (place, mask.width, mask.height, mask.stride)
        });
        let (kind, pyramid) = (tile.pixel_type, tile.pyramid);
        let record = format!("{kind} {pyramid} {mask:?} {:?}", tile.dimensions);
        (record, parts)
    });
    let attachments = file.attachments.iter().map(|attachment| {
        let (guid, kind) = (attachment.content_guid, attachment.file_type);
        let record = format!("{guid:?} {kind:?} {:?}", attachment.name);
        (record, vec![of(attachment.data)])
    });
    let xml = (String::new(), vec![of(file.xml), of(file.xml_attachment)]);
    tiles.chain(attachments).chain([xml]).collect()
}

/// Clean files of 8,192 segments are written, and more are refused as 36.
pub fn check_limits(sound: &Sound, random: &mut Random, report: &mut Report) {
    for limit in REPACK_LIMITS {
        if let Some(bytes) = limit.reach(sound, random) {
            match segments(&bytes) {
                Ok(8_192) => report.limits.add(limit.name),
                other => report.differs(format!("{}: {other:?}", limit.name)),
            }
        }
    }
    for clause in REPACK_CLAUSES {
        if let Some(bytes) = clause.reach(sound, random) {
            match segments(&bytes) {
                Err(refusal) if refusal == Refusal::new(36, 0) => report.clauses.add(clause.name),
                other => report.differs(format!("{}: {other:?}", clause.name)),
            }
        }
    }
}

/// How many segments the clean file has.
fn segments(bytes: &[u8]) -> Result<usize, Refusal> {
    let clean = clean(&judge(bytes, Release::V1_2)?)?;
    let file = judge(&clean, Release::V1_2)?;
    Ok(file.segments.len())
}

/// Writes so many files of every kind, each in a line: the release, the file, and its
/// clean file or its refusal, these two as hexadecimal digits. Then the files at the limit
/// of segments, and those at that of bytes: their length, and what of them is not zero.
pub fn write(first: u64, repacks: u64) -> io::Result<()> {
    let mut out = io::BufWriter::new(io::stdout().lock());
    for seed in first..first + repacks {
        let sound = sound(seed);
        let random = &mut Random::new(seed ^ 0x4EAC_4ED5_EED0_0004);
        let bytes = match seed % 6 {
            0 => broken(&sound, random),
            1 => scramble(&sound, random),
            _ => sound.bytes,
        };
        let release = random.pick(&Release::ALL);
        write_one(&mut out, &bytes, release)?;
    }
    for limit in REPACK_LIMITS.iter().chain(REPACK_CLAUSES) {
        write_one(&mut out, &reach(limit), Release::V1_2)?;
    }
    for huge in HUGE {
        let file = huge.lay();
        write!(out, "1.2 {}", file.length)?;
        for (at, bytes) in file.parts {
            write!(out, ",{at}:{}", hex(&bytes))?;
        }
        let said = match huge.is_refused() {
            true => "refused=36\nplace=0\n".to_string(),
            false => format!("bytes={}\n", file.repacked),
        };
        writeln!(out, " 0x{}", hex(said.as_bytes()))?;
    }
    out.flush()
}

/// The file with a container that is broken, where it has one, or with another damage.
fn broken(sound: &Sound, random: &mut Random) -> Vec<u8> {
    let damaged = behind_a_container(sound, random).or_else(|| {
        let all = clauses();
        let clause = &all[random.below(all.len())];
        clause.damage(sound, random)
    });
    damaged.map_or(sound.bytes.clone(), |damaged| damaged.apply(sound))
}

/// A file of some seed that can be brought to the limit.
fn reach(limit: &Limit) -> Vec<u8> {
    let mut files = (0..).map(|seed| limit.reach(&sound(seed), &mut Random::new(seed)));
    let reached = files.find_map(|file| file);
    reached.expect("some file can be brought to it")
}

fn write_one(out: &mut impl Write, bytes: &[u8], release: Release) -> io::Result<()> {
    let said = match judge(bytes, release).and_then(|file| clean(&file)) {
        Ok(clean) => clean,
        Err(refusal) => {
            format!("refused={}\nplace={}\n", refusal.number, refusal.place).into_bytes()
        }
    };
    let release = match release {
        Release::V1_2 => "1.2",
        Release::V1_02 => "1.02",
    };
    writeln!(out, "{release} 0x{} 0x{}", hex(bytes), hex(&said))
}
