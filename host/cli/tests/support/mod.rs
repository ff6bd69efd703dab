//! What the tests of the command share: running it, folders, small mosaics.

#![allow(dead_code)]

pub mod mosaic;

use std::fs;
use std::io::Write;
use std::path::PathBuf;
use std::process::{Child, Command, Output, Stdio};
use std::time::{Duration, Instant};

pub const CZI: &str = env!("CARGO_BIN_EXE_czi");

pub fn samples() -> PathBuf {
    PathBuf::from(env!("CARGO_MANIFEST_DIR")).join("../samples")
}

pub fn sample(name: &str) -> String {
    samples().join(name).display().to_string()
}

pub fn czi(arguments: &[&str]) -> Output {
    let mut command = Command::new(CZI);
    command.args(arguments).output().expect("the command runs")
}

/// Runs a line of the shell, in which `czi` is the command.
pub fn shell(line: &str, arguments: &[&str]) -> Output {
    let line = line.replace("czi", "\"$0\"");
    let mut command = Command::new("sh");
    command.args(["-c", &line, CZI]).args(arguments);
    command.output().expect("sh runs")
}

/// Exit code, standard output and standard error; it must not die by a signal.
pub fn said(output: &Output) -> (i32, String, String) {
    let text = |bytes: &[u8]| String::from_utf8_lossy(bytes).into_owned();
    let (out, err) = (text(&output.stdout), text(&output.stderr));
    let code = output.status.code();
    let code = code.unwrap_or_else(|| panic!("{}: {err}", output.status));
    (code, out, err)
}

/// One line on standard error with these words, nothing on standard output, that code.
pub fn is_failure(output: &Output, code: i32, words: &str) {
    let (got, out, err) = said(output);
    assert_eq!((got, out.as_str()), (code, ""), "{words}: {err}");
    assert!(
        err.starts_with("czi: ") && err.contains(words),
        "{words}: {err}"
    );
    assert_eq!(err.matches('\n').count(), 1, "{words}: {err}");
}

/// What it prints, where it succeeds and says nothing else.
pub fn prints(arguments: &[&str]) -> String {
    let (code, out, err) = said(&czi(arguments));
    assert_eq!((code, err.as_str()), (0, ""), "{arguments:?}: {out}");
    out
}

pub fn fails(arguments: &[&str], code: i32, words: &str) {
    is_failure(&czi(arguments), code, words);
}

/// A folder of its own for a test, removed at the end.
pub struct Folder(pub PathBuf);

impl Folder {
    pub fn new(name: &str) -> Folder {
        let path = PathBuf::from(env!("CARGO_TARGET_TMPDIR")).join(name);
        let _ = fs::remove_dir_all(&path);
        fs::create_dir_all(&path).expect("a folder");
        Folder(path)
    }

    pub fn path(&self, name: &str) -> String {
        self.0.join(name).display().to_string()
    }

    /// A copy of the stored mosaic.
    pub fn mosaic(&self, name: &str) -> String {
        let path = self.path(name);
        fs::copy(sample("mosaic.czi"), &path).expect("a copy");
        path
    }

    pub fn write(&self, name: &str, bytes: &[u8]) -> String {
        let path = self.path(name);
        fs::write(&path, bytes).expect("a file");
        path
    }

    /// A file that begins so, and has zeros to that length, which take no room.
    pub fn write_sparse(&self, name: &str, (length, bytes): (u64, Vec<u8>)) -> String {
        let path = self.write(name, &bytes);
        let file = fs::OpenOptions::new().write(true).open(&path);
        file.and_then(|file| file.set_len(length)).expect("a file");
        path
    }

    pub fn read(&self, name: &str) -> Vec<u8> {
        fs::read(self.0.join(name)).expect(name)
    }

    /// All names in it, hidden ones too.
    pub fn names(&self) -> Vec<String> {
        let entries = fs::read_dir(&self.0).expect("the folder");
        let name = |e: std::io::Result<fs::DirEntry>| e.expect("an entry").file_name();
        let mut names: Vec<String> = entries
            .map(|e| name(e).to_string_lossy().into_owned())
            .collect();
        names.sort();
        names
    }
}

impl Drop for Folder {
    fn drop(&mut self) {
        let _ = fs::remove_dir_all(&self.0);
    }
}

/// A run that waits for the rest of standard input.
pub struct Waiting {
    pub child: Child,
    rest: Vec<u8>,
}

/// The side of the one tile of the mosaic that a waiting run reads.
pub const SIDE: usize = 400;

/// Starts a command that reads `-`; the last byte of a mosaic is kept back. The
/// rest is more than a pipe holds, so the command has begun to read it, and has
/// looked at its outputs.
pub fn waiting(command: &mut Command) -> Waiting {
    let mut child = command
        .stdin(Stdio::piped())
        .stdout(Stdio::piped())
        .stderr(Stdio::piped())
        .spawn()
        .expect("the command runs");
    let side = SIDE as i32;
    let bytes = mosaic::mosaic(&[mosaic::gray8(0, 0, side, side)]);
    let (most, rest) = bytes.split_at(bytes.len() - 1);
    let pipe = child.stdin.as_mut().expect("a pipe");
    pipe.write_all(most).expect("it reads");
    Waiting {
        child,
        rest: rest.to_vec(),
    }
}

impl Waiting {
    /// Gives it the last byte.
    pub fn go_on(&mut self) {
        let mut pipe = self.child.stdin.take().expect("a pipe");
        pipe.write_all(&self.rest).expect("it reads");
    }

    pub fn end(mut self) -> Output {
        if self.child.stdin.is_some() {
            self.go_on();
        }
        self.child.wait_with_output().expect("it ends")
    }
}

/// Looks again and again, for some seconds.
pub fn until(what: &str, mut is_so: impl FnMut() -> bool) {
    let end = Instant::now() + Duration::from_secs(20);
    while !is_so() {
        assert!(Instant::now() < end, "{what}");
        std::thread::sleep(Duration::from_micros(200));
    }
}

/// Waits until the run has mapped the file.
pub fn until_mapped(child: &Child, file: &str) {
    let maps = PathBuf::from(format!("/proc/{}/maps", child.id()));
    let file = fs::canonicalize(file).unwrap().display().to_string();
    until("it maps the file", || {
        fs::read_to_string(&maps).is_ok_and(|maps| maps.contains(&file))
    });
}

#[allow(unsafe_code)]
pub fn kill(child: &Child, signal: i32) {
    extern "C" {
        fn kill(process: i32, signal: i32) -> i32;
    }
    // SAFETY: a child that nobody has waited for keeps its number.
    unsafe { kill(child.id() as i32, signal) };
}

pub const HUP: i32 = 1;
const INT: i32 = 2;
const TERM: i32 = 15;

/// The signals by which a person ends a run, but those that this test's own
/// caller ignores, as a shell does for what it runs in the background: a run
/// ignores them too.
pub fn signals() -> Vec<i32> {
    let status = fs::read_to_string("/proc/self/status").expect("Linux");
    let ignored = status.lines().find_map(|line| line.strip_prefix("SigIgn:"));
    let ignored = u64::from_str_radix(ignored.unwrap_or("0").trim(), 16).expect("bits");
    let heard = |signal: &i32| ignored >> (signal - 1) & 1 == 0;
    [TERM, INT, HUP].into_iter().filter(heard).collect()
}
