//! The command `repack`: the file written anew without its dead segments.
//!
//! The library writes the new file into memory, which goes to the disk as it is. What
//! stands there is read back and judged before it gets its name: who drops the old file
//! afterwards has nothing else.

use crate::answer::{finish, is_standard, Answer, Sink};
use crate::arguments::{Arguments, Takes};
use crate::failure::Failure;
use crate::input::Input;
use crate::outputs::look;
use crate::staged::Staged;
use crate::{memory, release, streams};
use czi::{Reason, Refusal, Release, Scan, Summary};
use std::collections::HashSet;
use std::ffi::OsString;
use std::hash::Hash;
use std::path::Path;

const TAKES: Takes = Takes {
    flags: &["--force", "--json"],
    values: &["--out", release::OPTION],
    many: &[],
};

/// Repacks and answers the new file and the lines.
pub fn run(words: Vec<OsString>) -> Result<Answer, Failure> {
    let arguments = Arguments::parse(words, &TAKES)?;
    let release = release::parse(&arguments)?;
    let missing = || Failure::Usage("--out is missing: it names the new file".to_string());
    let out = arguments.path("--out").ok_or_else(missing)?;
    let mut input = Input::open(&arguments.only_path("FILE")?)?;
    let files: Vec<&Path> = match is_standard(&out) {
        true => {
            streams::error()?;
            Vec::new()
        }
        false => vec![&out],
    };
    let files = look(&files, arguments.flag("--force"), &input.identity())?;
    // Nothing is written before the file is known to have stayed as it was.
    let (new, old) = input.lending(|file| repack(Scan::new(file).release(release)))?;
    let (sink, after) = match files.first() {
        None => {
            let after = accepted(&out, &new, release)?;
            (Sink::Memory(new), after)
        }
        Some(output) => {
            let mut staged = Staged::begin(output)?;
            staged.write(&new)?;
            let after = read_back(&staged, &out, &new, release)?;
            (Sink::File(staged), after)
        }
    };
    let lines = match arguments.flag("--json") {
        false => old.lines(&after, release),
        true => old.json(&after, release),
    };
    // Who drops FILE afterwards should not lose what came into it meanwhile.
    input.looked_at_again()?;
    finish(vec![sink], lines)
}

/// The new file, and what is to be said of the old one.
fn repack(scan: Scan) -> Result<(Vec<u8>, Old), Failure> {
    let size = czi::repack_size(scan);
    let mut new = buffer(size.map_err(|refusal| too_large(scan, refusal))?)?;
    czi::repack(scan, &mut new)?;
    let old = Old {
        before: czi::summary(scan)?,
        repeated: repeated(scan)?,
        is_short: has_short_file_segment(scan.file),
        is_same: new == scan.file,
    };
    Ok((new, old))
}

/// Of 36 it is said what makes the new file larger than the old one.
fn too_large(scan: Scan, refusal: Refusal) -> Failure {
    let more = match (refusal.reason, repeated(scan)) {
        (Reason::RepackSize, Ok(0)) => "its file segment would have 512 bytes",
        (Reason::RepackSize, Ok(_)) => {
            "what the file lists more than once would be written as often"
        }
        _ => return refusal.into(),
    };
    Failure::Refused(refusal, Some(more.to_string()))
}

/// Has the first segment of an accepted file room for fewer than the 512 bytes of a new one?
fn has_short_file_segment(file: &[u8]) -> bool {
    let allocated = file.get(16..24).and_then(|bytes| bytes.try_into().ok());
    allocated.is_some_and(|bytes| u64::from_le_bytes(bytes) < 512)
}

/// So many zero bytes for the whole of the new file.
fn buffer(length: u64) -> Result<Vec<u8>, Failure> {
    memory::zeros(length).map_err(|failure| {
        let more = "a repack takes as much memory as the new file has bytes";
        Failure::Other(format!("{failure}; {more}"))
    })
}

fn repeated(scan: Scan) -> Result<u64, Refusal> {
    let tiles = czi::tiles(scan)?.map(|tile| tile.position);
    // Two attachments are one where their data begin at the same place.
    let attached = czi::attachments(scan)?;
    let attached = attached.iter().map(|attachment| attachment.data.start);
    Ok(again(tiles) + again(attached))
}

/// How many were there before.
fn again<T: Eq + Hash>(items: impl Iterator<Item = T>) -> u64 {
    let mut seen = HashSet::new();
    items.map(|item| u64::from(!seen.insert(item))).sum()
}

/// Reads the new file back from the disk: it has to be what was written, and accepted.
fn read_back(
    staged: &Staged,
    out: &Path,
    new: &[u8],
    release: Release,
) -> Result<Summary, Failure> {
    staged.read_back(|bytes| match bytes == new {
        true => accepted(out, bytes, release),
        false => {
            let what = "read back from the disk it is not what was written; it is not kept";
            Err(Failure::of(out, what))
        }
    })
}

/// The figures of the new file, which the library has to accept. That it does not would be
/// no refusal of what the user gave.
fn accepted(out: &Path, new: &[u8], release: Release) -> Result<Summary, Failure> {
    let scan = Scan::new(new).release(release);
    let figures = czi::judge(scan).and_then(|()| czi::summary(scan));
    figures.map_err(|refusal| {
        let what = format!("the new file is not accepted, and not kept: {refusal}");
        Failure::of(out, what)
    })
}

/// The old file, for the lines that tell it from the new one.
struct Old {
    before: Summary,
    /// How many entries name a segment that an earlier entry names too.
    repeated: u64,
    /// Has its file segment room for fewer than 512 bytes?
    is_short: bool,
    /// Is the new file the same, byte for byte?
    is_same: bool,
}

impl Old {
    fn dropped(&self, after: &Summary) -> u64 {
        self.before.segments + self.repeated - after.segments
    }

    /// The numbers by their names. Those of the old segments that are not dropped are in
    /// the new file, and the repeated ones besides.
    fn numbers(&self, after: &Summary) -> [(&'static str, u64); 6] {
        let before = &self.before;
        [
            ("bytes_before", before.bytes),
            ("bytes_after", after.bytes),
            ("segments_before", before.segments),
            ("segments_after", after.segments),
            ("segments_dropped", self.dropped(after)),
            ("segments_repeated", self.repeated),
        ]
    }

    /// What a person may wonder about.
    fn notes(&self, after: &Summary) -> impl Iterator<Item = &'static str> {
        let is_longer = after.bytes > self.before.bytes;
        let is_repeated = self.repeated != 0;
        let is_other = !self.is_same && !is_repeated && self.dropped(after) == 0;
        let notes = [
            (
                is_repeated,
                "a segment that is listed more than once is written as often",
            ),
            (
                is_longer && is_repeated && !self.is_short,
                "the new file is longer: by what is repeated",
            ),
            (
                is_longer && !is_repeated && self.is_short,
                "the new file is longer: the file segment of FILE was shorter than 512 bytes",
            ),
            (
                is_longer && is_repeated && self.is_short,
                "the new file is longer: by what is repeated, and since the file segment of FILE \
                 was shorter than 512 bytes",
            ),
            (
                self.is_same,
                "the file was clean: the new one has the same bytes",
            ),
            (
                is_other && !is_longer,
                "nothing was dropped; segments stand in another order, or bytes without a meaning \
                 were cleared or left out",
            ),
        ];
        let given = notes.into_iter().filter(|(is_given, _)| *is_given);
        given.map(|(_, note)| note)
    }

    fn lines(&self, after: &Summary, release: Release) -> String {
        let mut lines = String::new();
        for (name, number) in self.numbers(after) {
            lines += &format!("{name}={number}\n");
        }
        for note in self.notes(after) {
            lines += &format!("note: {note}\n");
        }
        format!("{lines}release={release}\n")
    }

    /// The same but for the notes.
    fn json(&self, after: &Summary, release: Release) -> String {
        let mut fields = String::new();
        for (name, number) in self.numbers(after) {
            fields += &format!("\"{name}\":{number},\n");
        }
        format!("{{{fields}\"release\":\"{release}\"}}\n")
    }
}

#[cfg(test)]
mod tests {
    use super::*;
    use crate::staged::tests::ALONE;
    use std::fs::{self, OpenOptions};
    use std::os::unix::fs::FileExt;
    use std::path::PathBuf;

    const DEAD: &[u8] = include_bytes!("../../samples/dead.czi");
    const REPACKED: &[u8] = include_bytes!("../../samples/dead_repacked.czi");

    #[test]
    fn the_dead_file_is_counted() {
        for release in Release::ALL {
            let (new, old) = repack(Scan::new(DEAD).release(release)).unwrap();
            assert!(new == REPACKED && !old.is_same);
            assert_eq!((old.before.segments, old.repeated), (14, 1));
            let (new, old) = repack(Scan::new(REPACKED).release(release)).unwrap();
            assert!(new == REPACKED && old.is_same);
            assert_eq!(old.repeated, 0, "each copy is listed once");
        }
        assert_eq!(again([1, 2, 1, 1, 2].into_iter()), 3);
    }

    /// A folder with one staged file of these bytes; the only name in it.
    fn staged(name: &str, bytes: &[u8]) -> (PathBuf, PathBuf, Staged) {
        let folder = std::env::temp_dir().join(format!("czi-{}-{name}", std::process::id()));
        fs::create_dir_all(&folder).unwrap();
        let outputs = look(&[&folder.join("new.czi")], false, &[]).unwrap();
        let mut staged = Staged::begin(&outputs[0]).unwrap();
        staged.write(bytes).unwrap();
        let mut names = fs::read_dir(&folder).unwrap();
        let only = names.next().unwrap().unwrap().path();
        assert!(names.next().is_none());
        (folder, only, staged)
    }

    /// What the disk holds counts: other bytes, fewer or more, and bytes that are no
    /// accepted file, are said in one line with exit code 1, and nothing is left.
    #[test]
    fn what_is_read_back_has_to_be_the_new_file() {
        let _alone = ALONE.lock();
        let change = |path: &Path, bytes: &[u8], at: u64| {
            let file = OpenOptions::new().write(true).open(path).unwrap();
            file.write_all_at(bytes, at).unwrap();
        };
        let cut = |path: &Path, length: u64| {
            let file = OpenOptions::new().write(true).open(path).unwrap();
            file.set_len(length).unwrap();
        };
        let other = "read back from the disk it is not what was written; it is not kept";
        type Happens<'a> = (&'a dyn Fn(&Path), &'a [u8], Option<&'a str>);
        let refused = "the new file is not accepted, and not kept: refused 3 at ";
        let cases: [Happens; 7] = [
            (&|_| (), REPACKED, None),
            (&|path| change(path, b"Z", 0), REPACKED, None),
            (&|path| change(path, b"z", 0), REPACKED, Some(other)),
            (&|path| change(path, b"\x01", 4095), REPACKED, Some(other)),
            (&|path| change(path, b"\x01", 4096), REPACKED, Some(other)),
            (&|path| cut(path, 0), REPACKED, Some(other)),
            (&|_| (), &REPACKED[..4064], Some(refused)),
        ];
        for (happens, new, wanted) in cases {
            let (folder, path, staged) = staged("read-back", new);
            happens(&path);
            let out = Path::new("new.czi");
            let said = read_back(&staged, out, new, Release::V1_2);
            drop(staged);
            fs::remove_dir(&folder).expect("nothing is left");
            match (said, wanted) {
                (Ok(after), None) => assert_eq!(after.segments, 9),
                (Err(failure), Some(words)) => {
                    assert_eq!(failure.code(), 1);
                    let line = failure.line();
                    assert!(
                        line.starts_with(&format!("czi: new.czi: {words}")),
                        "{line}"
                    );
                    assert_eq!(line.matches('\n').count(), 1);
                }
                (said, wanted) => panic!("{:?} {wanted:?}", said.map(|_| ())),
            }
        }
    }
}
