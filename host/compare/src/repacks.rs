//! Repacks: number, place, length, and every lent byte, under both releases, with buffers
//! of every kind of length; and what the request says of a clean file, of the library's
//! own answers.

use crate::lent::Lent;
use crate::read::Read;
use crate::reader::answer;
use crate::repacked::{hold_clean, hold_plane};
use crate::report::{name, Report};
use crate::zeros::Zeros;
use czi::calls::{self, Answer};
use generate::ask::{ask_clauses, draw, Ask};
use generate::{sound, Huge, Limit, Random, Sound, HUGE, REPACK_CLAUSES, REPACK_LIMITS};
use reference::{judge, File, Refusal, Release};

/// Of a hundred damaged files that are accepted so many are held against their clean file.
const HELD: u64 = 15;

/// Of a hundred questions to both files so many are refused by plan.
const SPOILED: u64 = 15;

/// The names of how a buffer is lent.
pub const BUFFERS: [&str; 8] = [
    "a buffer exactly long enough",
    "a buffer one byte short",
    "a buffer longer than needed",
    "a buffer of 0 bytes",
    "a buffer of 0 bytes for a refused file",
    "a buffer of some bytes for a refused file",
    "a buffer of 0 bytes for 36",
    "a buffer of some bytes for 36",
];

/// The names of what goes before what.
pub const REPACK_ORDERS: [&str; 3] = [
    "the file's refusal before 25",
    "the file's refusal before 36",
    "36 before 25",
];

/// Row 25.
pub const BUFFER_CLAUSES: [&str; 2] = ["25: a buffer of 0 bytes", "25: a buffer one byte short"];

/// The names of what came of repacks.
pub const REPACKED: [&str; 6] = [
    "repacked under both releases",
    "refused alike under both releases",
    "17 or 18 under 1.2, repacked under 1.02",
    "17 or 18 under 1.2, another refusal under 1.02",
    "the clean file is shorter",
    "the clean file is longer",
];

/// A sound file: repacked, and held against its clean file.
pub fn check(read: &Read, sound: &Sound, random: &mut Random, report: &mut Report) {
    let asks = Release::ALL.map(|_| question(sound, random));
    check_file(read, Some(&asks), random, report);
}

/// A damaged file; some of those that are accepted are held against their clean file.
pub fn check_damaged(read: &Read, sound: &Sound, random: &mut Random, report: &mut Report) {
    if read.widest().is_some() && random.percent(HELD) {
        return check(read, sound, random, report);
    }
    check_file(read, None, random, report);
}

/// A question to a sound file, some of them refused.
pub fn question(sound: &Sound, random: &mut Random) -> Ask {
    let ask = draw(sound, random);
    if !random.percent(SPOILED) {
        return ask;
    }
    let clause = &ask_clauses()[random.below(ask_clauses().len())];
    let spoiled = clause.spoil(sound, random, ask.clone());
    spoiled.unwrap_or(ask)
}

/// The clean file under each release; then, where there are questions, one for each
/// release, what the request says of it.
fn check_file(read: &Read, asks: Option<&[Ask; 2]>, random: &mut Random, report: &mut Report) {
    let clean = Release::ALL.map(|release| check_under(release, read, random, report));
    let lengths = [0, 1].map(|k| clean[k].as_ref().map(Vec::len));
    read.hold_alike(|| "repack".into(), &lengths, report);
    if let [Some(newer), Some(older)] = &clean {
        if newer != older {
            report.differs("another clean file under 1.2 than under 1.02");
        }
    }
    note(read, &clean, report);
    for (k, release) in Release::ALL.into_iter().enumerate() {
        if let (Some(clean), Some(asks)) = (&clean[k], asks) {
            let places = hold_clean(release, read, clean, report);
            hold_again(release, clean, report);
            let both = (read.bytes, &clean[..]);
            hold_plane(release, both, &places, &asks[k], random, report);
        }
    }
    report.check_unchanged(read.bytes);
}

/// What the library said, and the buffer that it left.
struct Got {
    said: Answer<u64>,
    left: Lent<u8>,
}

/// All buffers under one release, against the reference. Answers the library's clean file.
fn check_under(
    release: Release,
    read: &Read,
    random: &mut Random,
    report: &mut Report,
) -> Option<Vec<u8>> {
    let file = read.under(release);
    let size = file.and_then(File::repack_size);
    let said = size_of(release, read.bytes, report);
    report.compare_under(release, || "repack_size".into(), &said, &answer(size, 0));
    report.check_unchanged(read.bytes);
    let mut clean = None;
    for (length, kind) in lengths(file, size, random) {
        report.buffers.add(kind);
        let lent = Lent::new(length, random.word());
        let got = repack(release, read.bytes, &lent, report);
        report.check_unchanged(read.bytes);
        compare(release, file, &lent, &got, report);
        // Whatever the reference says: 25 exactly when the buffer is shorter than the size
        // that was said, and what refuses the size refuses the repack.
        let wanted = match said.number {
            0 if (length as u64) < said.value => (25, 0, 0),
            number => (number, said.place, said.value),
        };
        let of = (got.said.number, got.said.place, got.said.value);
        if of != wanted {
            let release = name(release);
            report.differs(format!(
                "repack under {release}: {of:?}, by its size {wanted:?}"
            ));
        }
        note_refusal(file.err(), size.err(), kind, &got, report);
        if got.said.number == 0 && kind == BUFFERS[0] {
            clean = Some(got.left.lent().to_vec());
        }
    }
    clean
}

/// The lengths of buffers, each with its name.
fn lengths(
    file: Result<&File, Refusal>,
    size: Result<u64, Refusal>,
    random: &mut Random,
) -> Vec<(usize, &'static str)> {
    let some = 1 + random.below(70);
    match size {
        Ok(size) => vec![
            (size as usize, BUFFERS[0]),
            (size as usize - 1, BUFFERS[1]),
            (size as usize + some, BUFFERS[2]),
            (0, BUFFERS[3]),
        ],
        Err(_) if file.is_ok() => vec![(0, BUFFERS[6]), (some, BUFFERS[7])],
        Err(_) if random.percent(50) => vec![(0, BUFFERS[4])],
        Err(_) => vec![(some, BUFFERS[5])],
    }
}

/// The size that the library says.
fn size_of(release: Release, bytes: &[u8], report: &mut Report) -> Answer<u64> {
    report.call(release, |number| calls::repack_size(bytes, number))
}

/// A repack by the library.
fn repack(release: Release, bytes: &[u8], lent: &Lent<u8>, report: &mut Report) -> Got {
    report.under(release).repacks += 1;
    let mut left = lent.clone();
    let said = report.call(release, |number| calls::repack(bytes, number, left.lend()));
    Got { said, left }
}

/// What one call said and left against the reference.
fn compare(
    release: Release,
    file: Result<&File, Refusal>,
    lent: &Lent<u8>,
    got: &Got,
    report: &mut Report,
) {
    let mut wanted = lent.clone();
    let written = file.and_then(|file| file.repack(wanted.lend()));
    let length = lent.lent().len();
    let what = || format!("repack into {length} bytes");
    report.compare_under(release, what, &got.said, &answer(written, 0));
    if let Some(at) = got.left.difference(&wanted) {
        let release = name(release);
        report.differs(format!(
            "repack into {length} bytes under {release} differs at {at}"
        ));
    }
    // Whatever the reference says: a refusal leaves all as it was, and nothing is written.
    if got.said.number != 0 && (got.left != *lent || got.said.value != 0) {
        report.differs("a refused repack changed the buffer, or says that it wrote");
    }
}

/// Repacking the clean file again gives the same bytes.
fn hold_again(release: Release, clean: &[u8], report: &mut Report) {
    let said = size_of(release, clean, report);
    let wanted = answer(Ok(clean.len() as u64), 0);
    report.compare_under(release, || "size of the clean file".into(), &said, &wanted);
    let lent = Lent::new(clean.len(), report.salt());
    let got = repack(release, clean, &lent, report);
    report.compare_under(release, || "repacked again".into(), &got.said, &wanted);
    let mut same = lent;
    same.lend().copy_from_slice(clean);
    if let Some(at) = got.left.difference(&same) {
        let release = name(release);
        report.differs(format!("repacked again under {release}: differs at {at}"));
    }
}

/// Counts what came of a file.
fn note(read: &Read, clean: &[Option<Vec<u8>>; 2], report: &mut Report) {
    let [newer, older] = read.refusals();
    report.repacked.add(match (newer, older) {
        (None, None) => "repacked under both releases",
        (Some(_), None) => "17 or 18 under 1.2, repacked under 1.02",
        _ if newer == older => "refused alike under both releases",
        _ => "17 or 18 under 1.2, another refusal under 1.02",
    });
    if let Some(clean) = &clean[1] {
        match clean.len().cmp(&read.bytes.len()) {
            std::cmp::Ordering::Less => report.repacked.add("the clean file is shorter"),
            std::cmp::Ordering::Greater => report.repacked.add("the clean file is longer"),
            std::cmp::Ordering::Equal => {}
        }
    }
}

/// Counts which refusal was given, and before which other.
fn note_refusal(
    of_file: Option<Refusal>,
    of_size: Option<Refusal>,
    kind: &str,
    got: &Got,
    report: &mut Report,
) {
    let is_0 = got.left.lent().is_empty();
    match (of_file, of_size) {
        (Some(_), _) if is_0 => report.repack_orders.add("the file's refusal before 25"),
        (None, Some(_)) => report.repack_orders.add("36 before 25"),
        (None, None) if got.said.number == 25 => match kind == BUFFERS[1] {
            true => report.clauses.add("25: a buffer one byte short"),
            false => report.clauses.add("25: a buffer of 0 bytes"),
        },
        _ => {}
    }
}

/// Files whose clean file has 8,192 segments, and more: once in a run.
pub fn check_most_segments(report: &mut Report) {
    for limit in REPACK_LIMITS {
        let (sound, bytes) = reach(limit);
        let random = &mut Random::new(report.salt());
        report.at(limit.name, &bytes);
        let read = Read::new(&bytes, report);
        check(&read, &sound, random, report);
        let segments = Release::ALL.map(|release| segments_of(release, &read, report));
        if report.compare(limit.name, &segments, &[Some(8_192); 2]) {
            report.repack_limits.add(limit.name);
        }
    }
    for clause in REPACK_CLAUSES {
        let (sound, mut bytes) = reach(clause);
        let random = &mut Random::new(report.salt());
        report.at(clause.name, &bytes);
        let read = Read::new(&bytes, report);
        check_damaged(&read, &sound, random, report);
        let wanted = [Some(Refusal::new(36, 0)); 2];
        let refused = Release::ALL.map(|release| {
            let file = read.under(release).ok();
            file.and_then(|file| file.repack_size().err())
        });
        if report.compare(clause.name, &refused, &wanted) {
            report.clauses.add(clause.name);
        }
        // The last entry A1 has another mark: the file's own refusal goes first.
        let last = last_attachment_entry(&read);
        bytes[last] ^= 1;
        report.at("a refused file, over 8,192 segments when repacked", &bytes);
        let read = Read::new(&bytes, report);
        check_damaged(&read, &sound, random, report);
        let wanted = [Some(Refusal::new(11, last as u64)); 2];
        if report.compare("the last entry A1", &read.refusals(), &wanted) {
            report.repack_orders.add("the file's refusal before 36");
        }
    }
}

/// The file of the first seed that can be brought to the limit.
fn reach(limit: &Limit) -> (Sound, Vec<u8>) {
    let mut seeds = (0..).map(sound);
    let reached = seeds.find_map(|sound| {
        let bytes = limit.reach(&sound, &mut Random::new(0))?;
        Some((sound, bytes))
    });
    reached.expect("some file can be brought to it")
}

/// How many segments the clean file has, by the library.
fn segments_of(release: Release, read: &Read, report: &mut Report) -> Option<u64> {
    let size = size_of(release, read.bytes, report).value;
    let lent = Lent::new(size as usize, report.salt());
    let got = repack(release, read.bytes, &lent, report);
    let clean = got.left.lent();
    let figures = report.call(release, |number| calls::summary(clean, number));
    (figures.number == 0).then_some(figures.value.segments)
}

/// The place of the last entry A1.
fn last_attachment_entry(read: &Read) -> usize {
    let last = read.widest().and_then(|file| file.attachments.last());
    last.map_or(0, |attachment| attachment.place as usize)
}

/// Files whose clean file has 2^40 bytes, and more: once in a run. None of it is built.
pub fn check_longest(report: &mut Report) {
    for huge in HUGE {
        report.at(huge.name, &[]);
        let file = huge.lay();
        match Zeros::but_for(file.length, &file.parts) {
            Ok(bytes) => check_huge(huge, &bytes, file.repacked, report),
            Err(error) => report.differs(format!("can't be mapped: {error}")),
        }
    }
}

fn check_huge(huge: &Huge, bytes: &[u8], repacked: usize, report: &mut Report) {
    let size = match huge.is_refused() {
        true => Err(Refusal::new(36, 0)),
        false => Ok(repacked as u64),
    };
    let refused = Refusal::new(if huge.is_refused() { 36 } else { 25 }, 0);
    let lent = [0, 1, 1000].map(|length| Lent::new(length, report.salt()));
    for release in Release::ALL {
        let judged = judge(bytes, release);
        let by_reference = judged.as_ref().map_err(|refusal| *refusal);
        let by_reference = by_reference.and_then(File::repack_size);
        report.compare_under(release, || "foretold size".into(), &by_reference, &size);
        let said = size_of(release, bytes, report);
        report.compare_under(release, || "repack_size".into(), &said, &answer(size, 0));
        for lent in &lent {
            let got = repack(release, bytes, lent, report);
            let wanted = answer(Err(refused), 0);
            report.compare_under(release, || "repack".into(), &got.said, &wanted);
            if got.left != *lent {
                report.differs("a refused repack changed the buffer");
            }
        }
    }
    match huge.is_refused() {
        true => report.clauses.add(huge.name),
        false => report.repack_limits.add(huge.name),
    }
}
