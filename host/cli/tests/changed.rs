//! A file that is cut, changed or replaced while it is read gives no answer: one
//! line, exit code 1, no output.

mod support;

use std::fs::{self, OpenOptions};
use std::os::unix::fs::FileExt;
use std::process::{Command, Output, Stdio};
use support::{is_failure, until_mapped, Folder, CZI};

/// Lets `happen` happen once a run has mapped the file; a run of some tenths of
/// a second, since its window is large.
fn while_mapped(folder: &Folder, words: &[&str], happen: impl FnOnce(&str)) -> Output {
    let file = folder.mosaic("in.czi");
    let child = Command::new(CZI)
        .args([words[0], &file])
        .args(&words[1..])
        .args(["--window", "0,0,20000,5000"])
        .stdout(Stdio::piped())
        .stderr(Stdio::piped())
        .spawn()
        .expect("the command runs");
    until_mapped(&child, &file);
    happen(&file);
    child.wait_with_output().expect("it ends")
}

fn cut(file: &str) {
    let file = OpenOptions::new().write(true).open(file).unwrap();
    file.set_len(0).unwrap();
}

/// The last byte is free, so the file stays sound.
fn change(file: &str) {
    let file = OpenOptions::new().write(true).open(file).unwrap();
    file.write_all_at(&[7], 6143).unwrap();
}

fn replace(file: &str) {
    let other = format!("{file}.other");
    fs::copy(file, &other).unwrap();
    fs::rename(other, file).unwrap();
}

fn tried(name: &str, happen: fn(&str), words: &str) {
    let folder = Folder::new(name);
    let (out, map) = (folder.path("out"), folder.path("map"));
    for command in [
        &["compose", "--out", &out, "--map", &map][..],
        &["compose", "--out", "-"],
        &["count", "--jobs", "3"],
        &["count", "--jobs", "1"],
    ] {
        let output = while_mapped(&folder, command, happen);
        is_failure(&output, 1, words);
        assert_eq!(folder.names(), ["in.czi"], "{command:?}");
    }
}

#[test]
fn cut_while_it_is_read() {
    tried("cut", cut, "in.czi: it was cut, or can't be read any more");
}

#[test]
fn changed_while_it_is_read() {
    tried(
        "changed",
        change,
        "in.czi: it was changed while it was read",
    );
}

#[test]
fn replaced_while_it_is_read() {
    tried(
        "replaced",
        replace,
        "in.czi: it was changed while it was read",
    );
}
