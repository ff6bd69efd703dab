//! Files written anew without their dead segments: what is printed and left, and that
//! nothing of the user's is lost.

mod support;

use std::fs::{self, OpenOptions};
use std::os::unix::fs::{symlink, FileExt, PermissionsExt};
use std::os::unix::process::ExitStatusExt;
use std::process::{Command, Stdio};
use std::time::{Duration, Instant};
use support::mosaic::{crowded, gray8, mosaic};
use support::{
    czi, fails, is_failure, kill, prints, said, sample, samples, shell, signals, until_mapped,
    waiting, Folder, CZI, SIDE,
};

const FIGURES: &str = "bytes_before=9280\nbytes_after=4096\n\
                       segments_before=14\nsegments_after=9\n\
                       segments_dropped=6\nsegments_repeated=1\n";
const NOTE: &str = "note: a segment that is listed more than once is written as often\n";

fn repacked() -> Vec<u8> {
    fs::read(sample("dead_repacked.czi")).unwrap()
}

/// A file with one tile of that side, whose repack takes a while.
fn large(folder: &Folder, side: i32) -> String {
    let tile = gray8(0, 0, side, side);
    folder.write_sparse("large.czi", crowded(&tile, 1, 1))
}

#[test]
fn the_dead_file_becomes_the_stored_one() {
    let folder = Folder::new("repack");
    let (file, new) = (sample("dead.czi"), folder.path("new.czi"));
    for release in ["1.2", "1.02"] {
        let asked = ["repack", &file, "--release", release, "--force", "--out"];
        let lines = prints(&[&asked[..], &[&new]].concat());
        assert_eq!(lines, format!("{FIGURES}{NOTE}release={release}\n"));
        assert_eq!(folder.read("new.czi"), repacked());
    }
    let listed = fs::read_to_string(sample("dead_repacked.txt")).unwrap();
    assert_eq!(prints(&["list", &new]), listed);
    assert_eq!(folder.names(), ["new.czi"]);
    // Without --release it is 1.2.
    let other = folder.path("other.czi");
    let lines = prints(&["repack", &file, "--out", &other]);
    assert_eq!(lines, format!("{FIGURES}{NOTE}release=1.2\n"));
    assert_eq!(folder.read("other.czi"), repacked());
}

#[test]
fn json_has_the_same_numbers() {
    let folder = Folder::new("repack-json");
    let (file, new) = (sample("dead.czi"), folder.path("new.czi"));
    let lines = prints(&["repack", "--json", &file, "--out", &new]);
    let wanted = "{\"bytes_before\":9280,\n\"bytes_after\":4096,\n\
                  \"segments_before\":14,\n\"segments_after\":9,\n\
                  \"segments_dropped\":6,\n\"segments_repeated\":1,\n\"release\":\"1.2\"}\n";
    assert_eq!(lines, wanted);
    assert_eq!(folder.read("new.czi"), repacked());
}

#[test]
fn a_clean_file_stays_as_it_is() {
    let folder = Folder::new("repack-clean");
    let (file, new) = (sample("dead_repacked.czi"), folder.path("new.czi"));
    let wanted = "bytes_before=4096\nbytes_after=4096\nsegments_before=9\nsegments_after=9\n\
                  segments_dropped=0\nsegments_repeated=0\n\
                  note: the file was clean: the new one has the same bytes\nrelease=1.2\n";
    assert_eq!(prints(&["repack", &file, "--out", &new]), wanted);
    assert_eq!(folder.read("new.czi"), repacked());
}

#[test]
fn a_new_file_may_be_longer() {
    let folder = Folder::new("repack-longer");
    let longer = "note: the new file is longer: the file segment of FILE was shorter than 512 \
                  bytes\n";
    let (file, new) = (sample("smallest.czi"), folder.path("smallest.czi"));
    let wanted = "bytes_before=288\nbytes_after=704\nsegments_before=2\nsegments_after=2\n\
                  segments_dropped=0\nsegments_repeated=0\n";
    let lines = prints(&["repack", &file, "--out", &new]);
    assert_eq!(lines, format!("{wanted}{longer}release=1.2\n"));
    let file = sample("free.czi");
    let lines = prints(&["repack", &file, "--out", &folder.path("free.czi")]);
    let repeated = "note: the new file is longer: by what is repeated\n";
    assert!(
        lines.ends_with(&format!("=1\n{NOTE}{repeated}release=1.2\n")),
        "{lines}"
    );
    // One tile three times, and one attachment five times.
    let tile = gray8(0, 0, 10, 10);
    let file = folder.write_sparse("a.czi", crowded(&tile, 3, 5));
    let new = folder.path("b.czi");
    let lines = prints(&["repack", &file, "--out", &new]);
    let counted = "segments_before=5\nsegments_after=11\n\
                   segments_dropped=0\nsegments_repeated=6\n";
    let both = "note: the new file is longer: by what is repeated, and since the file segment of \
                FILE was shorter than 512 bytes\n";
    assert!(
        lines.ends_with(&format!("{counted}{NOTE}{both}release=1.2\n")),
        "{lines}"
    );
    let lines = prints(&["repack", &new, "--out", &folder.path("c.czi")]);
    assert!(lines.contains("\nsegments_repeated=0\nnote: the file was clean: "));
    assert_eq!(folder.read("b.czi"), folder.read("c.czi"));
}

#[test]
fn a_file_without_dead_segments_may_have_other_bytes() {
    let folder = Folder::new("repack-other");
    let (file, new) = (sample("pyramids.czi"), folder.path("new.czi"));
    let lines = prints(&["repack", &file, "--out", &new]);
    let wanted = "bytes_before=1824\nbytes_after=1824\nsegments_before=4\nsegments_after=4\n\
                  segments_dropped=0\nsegments_repeated=0\n\
                  note: nothing was dropped; segments stand in another order, or bytes without a \
                  meaning were cleared or left out\nrelease=1.2\n";
    assert_eq!(lines, wanted);
}

/// Of each accepted sample: what the commands say of the new file is what they say of the
/// old one, but for bytes and segments.
#[test]
fn all_is_said_of_the_new_file_that_is_said_of_the_old_one() {
    let folder = Folder::new("repack-same");
    let new = folder.path("new.czi");
    let (mut seen, mut dropped) = (0, 0);
    for entry in fs::read_dir(samples()).unwrap() {
        let path = entry.unwrap().path();
        if path.extension().is_none_or(|e| e != "czi") {
            continue;
        }
        let file = path.display().to_string();
        for release in ["--release=1.2", "--release=1.02"] {
            if czi(&["judge", &file, release]).status.code() != Some(0) {
                continue;
            }
            let lines = prints(&["repack", &file, "--out", &new, "--force", release]);
            dropped += usize::from(!lines.contains("\nsegments_dropped=0\n"));
            prints(&["judge", &new, release]);
            let info = |file: &str| {
                let info = prints(&["info", file, release]);
                let lines = info.lines().map(|line| format!("{line}\n"));
                lines.skip(2).collect::<String>()
            };
            assert_eq!(info(&new), info(&file), "{file}");
            for asked in [
                &["tiles"][..],
                &["count", "--scene=any", "--window=-50,-50,300,300"],
                &["count", "--masks=on", "--window=-50,-50,300,300"],
            ] {
                let said = |file: &str| {
                    let (code, out, err) = said(&czi(&[asked, &[file, release]].concat()));
                    // A refusal names a place.
                    (code, out, err.contains("refused 23 at "))
                };
                assert_eq!(said(&new), said(&file), "{file}: {asked:?}");
            }
            let plane = |file: &str, to: &str| {
                let (out, map) = (folder.path(to), folder.path(&format!("{to}.pbm")));
                let window = "--window=-50,-50,300,300";
                let asked = ["compose", file, "--masks=on", release, "--force", window];
                let code = said(&czi(&[&asked[..], &["--out", &out, "--map", &map]].concat())).0;
                let read = |name: &str| fs::read(name).unwrap_or_default();
                let left = (code, read(&out), read(&map));
                let _ = fs::remove_file(out);
                let _ = fs::remove_file(map);
                left
            };
            assert_eq!(plane(&new, "new"), plane(&file, "old"), "{file}");
            seen += 1;
        }
    }
    assert!(seen >= 20 && dropped >= 8, "{seen}, {dropped}");
}

#[test]
fn standard_streams_are_files_too() {
    let folder = Folder::new("repack-streams");
    let (file, new) = (sample("dead.czi"), folder.path("new.czi"));
    let output = czi(&["repack", &file, "--out", "-"]);
    assert_eq!(output.stdout, repacked());
    let (code, _, err) = said(&output);
    assert_eq!((code, err), (0, format!("{FIGURES}{NOTE}release=1.2\n")));
    let output = shell("czi repack - --out \"$2\" <\"$1\"", &[&file, &new]);
    let lines = format!("{FIGURES}{NOTE}release=1.2\n");
    assert_eq!(said(&output), (0, lines, String::new()));
    assert_eq!(folder.read("new.czi"), repacked());
    let line = "cat \"$1\" | czi repack - --out - --json 2>\"$2\"";
    let output = shell(line, &[&file, &folder.path("said")]);
    assert_eq!((output.status.code(), output.stdout), (Some(0), repacked()));
    assert!(folder
        .read("said")
        .starts_with(b"{\"bytes_before\":9280,\n"));
    // The lines go to standard error here, and must not be lost.
    for to in ["2>/dev/full", "2>&-"] {
        let line = format!("czi repack \"$1\" --out - {to}");
        assert_eq!(shell(&line, &[&file]).status.code(), Some(1), "{to}");
    }
}

#[test]
fn the_file_that_is_read_is_never_replaced() {
    let folder = Folder::new("repack-input");
    let file = folder.write("in.czi", &fs::read(sample("dead.czi")).unwrap());
    let bytes = folder.read("in.czi");
    symlink("in.czi", folder.path("link")).unwrap();
    symlink(&folder.0, folder.path("folder")).unwrap();
    fs::hard_link(&file, folder.path("hard")).unwrap();
    let names = folder.names();
    for name in ["in.czi", "./in.czi", "link", "hard", "folder/in.czi"] {
        let same = folder.path(name);
        let words = "it is the file that is read, which is never replaced; give the output \
                     another name\n";
        for more in [&[][..], &["--force"]] {
            for from in ["in.czi", "link", "hard"] {
                let from = folder.path(from);
                let asked = ["repack", &from, "--out", &same];
                fails(&[&asked[..], more].concat(), 1, words);
            }
        }
        let line = "czi repack - --out \"$2\" --force <\"$1\"";
        is_failure(&shell(line, &[&file, &same]), 1, words);
        let line = "czi repack \"$1\" --out - >>\"$2\"";
        let words = "standard output goes into a file that is read or replaced; with > the shell \
                     has already emptied it\n";
        is_failure(&shell(line, &[&file, &same]), 1, words);
        assert_eq!(folder.read("in.czi"), bytes, "{name}");
        assert_eq!(folder.names(), names, "{name}");
    }
}

#[test]
fn a_file_that_is_there_is_replaced_by_force_alone() {
    let folder = Folder::new("repack-force");
    let (file, out) = (sample("dead.czi"), folder.write("out", b"old"));
    fs::set_permissions(&out, PermissionsExt::from_mode(0o600)).unwrap();
    symlink("out", folder.path("link")).unwrap();
    symlink("nothing", folder.path("broken")).unwrap();
    let names = folder.names();
    let words = "it is there already; --force replaces it";
    for name in ["out", "link"] {
        fails(&["repack", &file, "--out", &folder.path(name)], 1, words);
    }
    let broken = folder.path("broken");
    let asked = ["repack", &file, "--force", "--out", &broken];
    fails(&asked, 1, "it is a link to nothing");
    assert_eq!(folder.read("out"), b"old");
    // A link is followed and stays, and the mode is kept.
    prints(&["repack", &file, "--force", "--out", &folder.path("link")]);
    assert_eq!((folder.read("out"), folder.names()), (repacked(), names));
    let mode = fs::metadata(&out).unwrap().permissions().mode();
    assert_eq!(mode & 0o777, 0o600);
    assert!(fs::symlink_metadata(folder.path("link"))
        .unwrap()
        .is_symlink());
    fs::set_permissions(&out, PermissionsExt::from_mode(0o444)).unwrap();
    for more in [&[][..], &["--force"]] {
        let asked = ["repack", &file, "--out", &out];
        fails(&[&asked[..], more].concat(), 1, "read-only");
    }
    let none = folder.path("none/new.czi");
    fails(&["repack", &file, "--out", &none], 1, "none/new.czi: ");
    let here = folder.0.display().to_string();
    fails(&["repack", &file, "--out", &here], 1, "it is no plain file");
}

/// The mode of the file that is replaced may be one that its owner can't read.
#[test]
fn what_nobody_can_read_by_name_is_read_back_too() {
    let folder = Folder::new("repack-unread");
    let (file, out) = (sample("dead.czi"), folder.write("out", b"old"));
    fs::set_permissions(&out, PermissionsExt::from_mode(0o200)).unwrap();
    prints(&["repack", &file, "--force", "--out", &out]);
    fs::set_permissions(&out, PermissionsExt::from_mode(0o600)).unwrap();
    assert_eq!(folder.read("out"), repacked());
}

#[test]
fn what_is_refused_leaves_nothing() {
    let folder = Folder::new("repack-refused");
    let out = folder.path("new.czi");
    for (name, words) in [
        ("empty.czi", "refused 1 at 0: length 0"),
        ("cut.czi", "refused 3 at 128: "),
        ("refusal-13.czi", "refused 13 at 4556: compression not 0"),
        ("archive.czi", "refused 17 at 945: "),
        ("refusal-18.czi", "refused 18 at "),
    ] {
        for to in [&out[..], "-"] {
            fails(&["repack", &sample(name), "--out", to], 2, words);
        }
        // What is there stays, with --force too.
        folder.write("new.czi", b"old");
        let asked = ["repack", &sample(name), "--force", "--out", &out];
        fails(&asked, 2, words);
        assert_eq!(folder.read("new.czi"), b"old");
        fs::remove_file(&out).unwrap();
    }
    assert!(folder.names().is_empty());
    // 1.02 never gives 17 and 18, and the new file is judged by it too.
    for name in ["archive.czi", "refusal-17.czi", "refusal-18.czi"] {
        let asked = ["repack", &sample(name), "--release=1.02", "--out", &out];
        let lines = prints(&[&asked[..], &["--force"]].concat());
        assert!(lines.ends_with("\nrelease=1.02\n"), "{lines}");
        assert_eq!(said(&czi(&["judge", &out])).0, 2, "{name}");
        prints(&["judge", &out, "--release=1.02"]);
    }
}

#[test]
fn a_new_file_that_is_too_large_is_36() {
    let folder = Folder::new("repack-36");
    let out = folder.path("new.czi");
    let words = "refused 36 at 0: the repacked file would have more than 8192 segments or 2^40 \
                 bytes (what the file lists more than once would be written as often); czi help \
                 refusals says more";
    // File segment and both directories are three segments more.
    let tile = gray8(0, 0, 1, 1);
    let file = folder.write_sparse("most.czi", crowded(&tile, 4096, 4093));
    let lines = prints(&["repack", &file, "--out", &out]);
    let counted = "\nsegments_before=5\nsegments_after=8192\n\
                   segments_dropped=0\nsegments_repeated=8187\n";
    assert!(lines.contains(counted), "{lines}");
    fs::remove_file(&out).unwrap();
    let file = folder.write_sparse("more.czi", crowded(&tile, 4096, 4094));
    fails(&["repack", &file, "--out", &out], 2, words);
    fails(&["repack", &file, "--out", "-"], 2, words);
    // A tile of 2^30 bytes, which take no room on the disk here.
    let tile = gray8(0, 0, 1 << 15, 1 << 15);
    let file = folder.write_sparse("long.czi", crowded(&tile, 1100, 0));
    fails(&["repack", &file, "--out", &out], 2, words);
    assert_eq!(folder.names(), ["long.czi", "more.czi", "most.czi"]);
}

/// No machine of ours has a TiB of memory.
#[test]
fn memory_for_the_whole_new_file_is_asked_for_first() {
    let folder = Folder::new("repack-memory");
    let tile = gray8(0, 0, 1 << 15, 1 << 15);
    let file = folder.write_sparse("a.czi", crowded(&tile, 1000, 0));
    let size = 544 + (32 + 92_128) + 1000 * (32 + 256 + (1_u64 << 30)) + (32 + 256);
    let words = format!(
        "czi: there is no memory for {size} bytes; a repack takes as much memory as the new file \
         has bytes\n"
    );
    fails(
        &["repack", &file, "--out", &folder.path("b.czi")],
        1,
        &words,
    );
    fails(&["repack", &file, "--out", "-"], 1, &words);
    assert_eq!(folder.names(), ["a.czi"]);
}

#[test]
fn bad_arguments() {
    let folder = Folder::new("repack-bad");
    let (file, out) = (&*sample("dead.czi"), &*folder.path("new.czi"));
    for (words, line) in [
        (&[][..], "--out is missing: it names the new file"),
        (&[file], "--out is missing: it names the new file"),
        (&[file, "-o", out], "there is no option -o here"),
        (&["-o", out], "there is no option -o here"),
        (&["--out", out], "FILE is missing"),
        (&[file, "--out"], "--out wants a value"),
        (&[file, "--out="], " names no file"),
        (&[file, "--out", "a/"], "a/ names no file"),
        (&[file, "--out", out, "b"], "\"b\" is one argument too many"),
        (&[file, "--out", out, "--out=-"], "--out is given twice"),
        (&[file, "--out", out, "--json=1"], "--json takes no value"),
        (
            &[file, "--out", out, "--masks=on"],
            "no option --masks here",
        ),
    ] {
        let line = format!("{line} (czi help repack says how it is called)");
        fails(&[&["repack"], words].concat(), 1, &line);
    }
    for (file, words) in [
        (folder.path("none"), "none: No such file"),
        (folder.0.display().to_string(), "directory"),
    ] {
        fails(&["repack", &file, "--out", out], 1, words);
    }
    assert!(folder.names().is_empty());
}

/// A limit on the size of files is a full disk: the write fails.
#[test]
fn a_full_disk_leaves_everything_as_it_was() {
    let folder = Folder::new("repack-disk");
    let (file, out) = (sample("dead.czi"), folder.path("new.czi"));
    // Four blocks of 512 bytes, and the new file has 4096.
    let line = "ulimit -f 4; czi repack \"$1\" --out \"$2\" --force";
    is_failure(&shell(line, &[&file, &out]), 1, "new.czi: File too large");
    assert!(folder.names().is_empty());
    folder.write("new.czi", b"old");
    is_failure(&shell(line, &[&file, &out]), 1, "new.czi: File too large");
    assert_eq!(folder.names(), ["new.czi"]);
    assert_eq!(folder.read("new.czi"), b"old");
    let line = line.replace("-f 4", "-f 8");
    assert_eq!(said(&shell(&line, &[&file, &out])).0, 0);
    assert_eq!(folder.read("new.czi"), repacked());
}

/// Lets `happen` happen once a run has mapped the file, which it reads for a while.
fn while_mapped(name: &str, happen: fn(&str), words: &str) {
    let folder = Folder::new(name);
    for to in [folder.path("new.czi"), "-".to_string()] {
        let file = large(&folder, 12_288);
        let child = Command::new(CZI)
            .args(["repack", &file, "--out", &to])
            .stdout(Stdio::piped())
            .stderr(Stdio::piped())
            .spawn()
            .expect("the command runs");
        until_mapped(&child, &file);
        happen(&file);
        is_failure(&child.wait_with_output().expect("it ends"), 1, words);
        assert_eq!(folder.names(), ["large.czi"], "{to}");
    }
}

fn opened(file: &str) -> fs::File {
    OpenOptions::new().write(true).open(file).unwrap()
}

#[test]
fn cut_while_it_is_read() {
    let cut = |file: &str| opened(file).set_len(0).unwrap();
    let words = "large.czi: it was cut, or can't be read any more";
    while_mapped("repack-cut", cut, words);
}

#[test]
fn changed_while_it_is_read() {
    // A pixel: the file stays sound.
    let change = |file: &str| opened(file).write_all_at(&[7], 1 << 20).unwrap();
    let words = "large.czi: it was changed while it was read";
    while_mapped("repack-changed", change, words);
}

#[test]
fn replaced_while_it_is_read() {
    let replace = |file: &str| {
        let other = format!("{file}.other");
        fs::copy(sample("dead.czi"), &other).unwrap();
        fs::rename(other, file).unwrap();
    };
    let words = "large.czi: it was changed while it was read";
    while_mapped("repack-replaced", replace, words);
}

/// The new file is begun only after FILE was read and looked at, so that what happens from
/// then on is seen by the second look alone; writing and reading back take a while.
#[test]
fn changed_before_the_new_file_is_in_place() {
    type Happens = fn(&str);
    let change: Happens = |file| opened(file).write_all_at(&[7], 1 << 20).unwrap();
    let cut: Happens = |file| opened(file).set_len(0).unwrap();
    let replace: Happens = |file| {
        let other = format!("{file}.other");
        fs::copy(sample("dead.czi"), &other).unwrap();
        fs::rename(other, file).unwrap();
    };
    let words = "large.czi: it was changed before the new file was in place";
    let folder = Folder::new("repack-late");
    for happen in [change, cut, replace] {
        for old in [&["large.czi"][..], &["large.czi", "new.czi"]] {
            let file = large(&folder, 12_288);
            if old.len() == 2 {
                folder.write("new.czi", b"old");
            }
            let child = Command::new(CZI)
                .args(["repack", &file, "--force", "--out", &folder.path("new.czi")])
                .stdout(Stdio::piped())
                .stderr(Stdio::piped())
                .spawn()
                .expect("the command runs");
            let end = Instant::now() + Duration::from_secs(60);
            while folder.names().len() == old.len() {
                assert!(Instant::now() < end, "no new file is begun");
            }
            happen(&file);
            is_failure(&child.wait_with_output().expect("it ends"), 1, words);
            assert_eq!(folder.names(), old);
            if old.len() == 2 {
                assert_eq!(folder.read("new.czi"), b"old");
                fs::remove_file(folder.path("new.czi")).unwrap();
            }
        }
    }
}

/// Starts `repack - --out new.czi`, which has looked at its output and waits.
fn waiting_for(folder: &Folder, more: &[&str]) -> support::Waiting {
    let mut command = Command::new(CZI);
    command.args(["repack", "-", "--out", &folder.path("new.czi")]);
    waiting(command.args(more))
}

#[test]
fn what_came_to_be_there_meanwhile_is_not_replaced() {
    let folder = Folder::new("repack-came");
    for more in [&[][..], &["--force"]] {
        let running = waiting_for(&folder, more);
        folder.write("new.czi", b"another's");
        is_failure(&running.end(), 1, "new.czi: ");
        assert_eq!(folder.read("new.czi"), b"another's");
        fs::remove_file(folder.path("new.czi")).unwrap();
    }
    folder.write("new.czi", b"old");
    let running = waiting_for(&folder, &["--force"]);
    folder.write("other", b"other");
    fs::rename(folder.path("other"), folder.path("new.czi")).unwrap();
    let words = "new.czi: another file came to be there";
    is_failure(&running.end(), 1, words);
    assert_eq!(folder.read("new.czi"), b"other");
    assert_eq!(folder.names(), ["new.czi"]);
}

/// At many moments, most of them while the new file is made or written.
#[test]
fn a_signal_leaves_everything_as_it_was() {
    let folder = Folder::new("repack-ended");
    let (file, out) = (large(&folder, 4096), folder.path("new.czi"));
    // File segment, directory, tile, attachment directory, attachment.
    let whole = 544 + (32 + 224) + (32 + 256 + (16 << 20)) + (32 + 384) + (32 + 256);
    let run = || {
        let mut command = Command::new(CZI);
        command.args(["repack", &file, "--force", "--out", &out]);
        let command = command.stdout(Stdio::null()).stderr(Stdio::null());
        command.spawn().unwrap()
    };
    let begun = Instant::now();
    assert!(run().wait().unwrap().success());
    assert_eq!(fs::metadata(&out).unwrap().len(), whole);
    let length = begun.elapsed().max(Duration::from_millis(20));
    let mut ended = 0;
    for (k, signal) in (0..20).zip(signals().iter().cycle()) {
        folder.write("new.czi", b"old");
        let mut child = run();
        std::thread::sleep(length * k / 20);
        kill(&child, *signal);
        let status = child.wait().unwrap();
        assert_eq!(folder.names(), ["large.czi", "new.czi"], "at {k}");
        if !status.success() {
            assert_eq!(status.signal(), Some(*signal), "{status}");
            ended += 1;
        }
        // It may have done everything.
        let length = fs::metadata(&out).unwrap().len();
        assert!(length == 3 || length == whole, "at {k}: {length}");
        assert!(length == whole || !status.success());
    }
    assert!(ended >= 5, "only {ended} runs were ended by a signal");
}

/// The moments are around the rename. Old or new, and nothing beside it.
#[test]
fn a_signal_while_the_file_is_put_in_place() {
    let folder = Folder::new("repack-placed");
    let side = SIDE as i32;
    let bytes = mosaic(&[gray8(0, 0, side, side)]);
    let file = folder.write("in.czi", &bytes);
    prints(&["repack", &file, "--out", &folder.path("wanted.czi")]);
    let wanted = folder.read("wanted.czi");
    let folder = Folder::new("repack-placed-out");
    let mut kept = 0;
    for (k, signal) in (0..100).zip(signals().iter().cycle()) {
        folder.write("new.czi", b"old");
        let mut running = waiting_for(&folder, &["--force"]);
        running.go_on();
        let end = Instant::now() + Duration::from_micros(40 * k);
        while Instant::now() < end {
            std::hint::spin_loop();
        }
        kill(&running.child, *signal);
        running.child.wait().unwrap();
        assert_eq!(folder.names(), ["new.czi"], "at {k}");
        let left = folder.read("new.czi");
        assert!(left == b"old" || left == wanted, "at {k}");
        kept += usize::from(left == b"old");
    }
    assert!(kept > 0, "no run was ended before it was done");
}
