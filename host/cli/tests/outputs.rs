//! Nothing of the customer's is lost: what an output may be, and all or none.

mod support;

use std::fs;
use std::os::unix::fs::{symlink, PermissionsExt};
use std::process::{Command, Output};
use support::{czi, fails, is_failure, said, sample, shell, waiting, Folder, CZI};

const WINDOW: [&str; 2] = ["--window", "100,60,43,28"];

/// Composes `file` with plane and map at these places.
fn compose<'a>(file: &'a str, out: &'a str, map: &'a str, more: &[&'a str]) -> Vec<&'a str> {
    let fixed = ["compose", file, "--out", out, "--map", map];
    [&fixed[..], &WINDOW[..], more].concat()
}

#[test]
fn the_file_that_is_read_is_never_replaced() {
    let folder = Folder::new("is-input");
    let file = folder.mosaic("in.czi");
    let bytes = folder.read("in.czi");
    symlink("in.czi", folder.path("link")).unwrap();
    symlink(&folder.0, folder.path("folder")).unwrap();
    fs::hard_link(&file, folder.path("hard")).unwrap();
    let names = folder.names();
    for name in ["in.czi", "./in.czi", "link", "hard", "folder/in.czi"] {
        let (same, new) = (folder.path(name), folder.path("new"));
        for more in [&[][..], &["--force"]] {
            let words = "it is the file that is read";
            fails(&compose(&file, &same, &new, more), 1, words);
            fails(&compose(&file, &new, &same, more), 1, words);
            let extract = ["extract", &file, "--xml", "--out", &same];
            fails(&[&extract[..], more].concat(), 1, words);
        }
        // Standard input is an input too.
        let line = "czi compose - --out \"$2\" --force <\"$1\"";
        let output = shell(line, &[&file, &same]);
        is_failure(&output, 1, "it is the file that is read");
        assert_eq!(folder.read("in.czi"), bytes, "{name}");
        assert_eq!(folder.names(), names, "{name}");
    }
}

#[test]
fn two_outputs_are_two_files() {
    let folder = Folder::new("same-outputs");
    let file = folder.mosaic("in.czi");
    folder.write("old", b"old");
    fs::hard_link(folder.path("old"), folder.path("hard")).unwrap();
    symlink("old", folder.path("link")).unwrap();
    symlink(".", folder.path("folder")).unwrap();
    let names = folder.names();
    for (one, other) in [
        ("new", "new"),
        ("new", "./new"),
        ("new", "folder/new"),
        ("folder/new", "new"),
        ("old", "hard"),
        ("old", "link"),
        ("link", "folder/hard"),
    ] {
        let (out, map) = (folder.path(one), folder.path(other));
        let words = "it is the same file as another output";
        fails(&compose(&file, &out, &map, &["--force"]), 1, words);
        assert_eq!(folder.names(), names);
        assert_eq!(folder.read("old"), b"old");
    }
}

#[test]
fn a_file_that_is_there_is_replaced_by_force_alone() {
    let folder = Folder::new("force");
    let file = folder.mosaic("in.czi");
    let (out, map) = (folder.write("out", b"old"), folder.path("map"));
    fs::set_permissions(&out, PermissionsExt::from_mode(0o600)).unwrap();
    let names = folder.names();
    let words = "out: it is there already; --force replaces it";
    fails(&compose(&file, &out, &map, &[]), 1, words);
    fails(&compose(&file, &map, &out, &[]), 1, words);
    fails(&["sample", &out], 1, words);
    fails(&["extract", &file, "--xml", "--out", &out], 1, words);
    assert_eq!(folder.read("out"), b"old");
    assert_eq!(folder.names(), names);
    assert_eq!(said(&czi(&compose(&file, &out, &map, &["--force"]))).0, 0);
    assert_eq!(folder.read("out").len(), 1204);
    let mode = fs::metadata(&out).unwrap().permissions().mode();
    assert_eq!(mode & 0o777, 0o600, "the mode is kept");
    assert_eq!(folder.names(), ["in.czi", "map", "out"]);
    assert_eq!(said(&czi(&["sample", &out, "--force"])).0, 0);
    assert_eq!(folder.read("out"), folder.read("in.czi"));
    assert_eq!(folder.names(), ["in.czi", "map", "out"]);
}

#[test]
fn a_read_only_file_is_not_replaced() {
    let folder = Folder::new("read-only");
    let file = folder.mosaic("in.czi");
    let (out, map) = (folder.write("out", b"old"), folder.path("map"));
    fs::set_permissions(&out, PermissionsExt::from_mode(0o444)).unwrap();
    symlink("out", folder.path("link")).unwrap();
    let names = folder.names();
    for more in [&[][..], &["--force"]] {
        for out in [&out, &folder.path("link")] {
            fails(&compose(&file, out, &map, more), 1, "read-only");
            fails(&[&["sample", out][..], more].concat(), 1, "read-only");
        }
    }
    assert_eq!(folder.read("out"), b"old");
    assert_eq!(folder.names(), names);
}

#[test]
fn a_link_is_followed_and_stays() {
    let folder = Folder::new("links");
    folder.write("old", b"old");
    symlink("old", folder.path("link")).unwrap();
    symlink("nothing", folder.path("broken")).unwrap();
    fails(&["sample", &folder.path("link")], 1, "there already");
    fails(&["sample", &folder.path("broken")], 1, "a link to nothing");
    let forced = ["sample", &folder.path("link"), "--force"];
    assert_eq!(said(&czi(&forced)).0, 0);
    assert_eq!(folder.read("old").len(), 6144);
    assert!(fs::symlink_metadata(folder.path("link"))
        .unwrap()
        .is_symlink());
    assert_eq!(folder.names(), ["broken", "link", "old"]);
}

#[test]
fn streams_that_are_files_are_outputs_too() {
    let folder = Folder::new("stream-files");
    let file = folder.mosaic("in.czi");
    let (out, log) = (folder.write("out", b"old"), folder.path("log"));
    let bytes = folder.read("in.czi");
    for line in [
        "czi info \"$1\" >>\"$1\"",
        "czi compose \"$1\" --out - >>\"$1\"",
        "czi count - <\"$1\" >>\"$1\"",
    ] {
        let output = shell(line, &[&file]);
        is_failure(
            &output,
            1,
            "standard output goes into a file that is read or replaced",
        );
        assert_eq!(folder.read("in.czi"), bytes, "{line}");
    }
    // Nothing can be said, and nothing is written into the scan.
    let output = shell("czi judge \"$1\" 2>>\"$1\"", &[&file]);
    assert_eq!(said(&output), (1, String::new(), String::new()));
    assert_eq!(folder.read("in.czi"), bytes);
    let line = "czi compose \"$1\" --out \"$2\" --force >>\"$2\"";
    let output = shell(line, &[&file, &out]);
    is_failure(
        &output,
        1,
        "standard output goes into a file that is read or replaced",
    );
    assert_eq!(folder.read("out"), b"old");
    // A log of both streams is nothing special.
    let output = shell("czi info \"$1\" >\"$2\" 2>&1", &[&file, &log]);
    assert_eq!(said(&output).0, 0);
}

/// Starts `compose - --out out --map map`, lets `meanwhile` happen once the
/// outputs were looked at, and goes on.
fn meanwhile(folder: &Folder, more: &[&str], meanwhile: impl FnOnce()) -> Output {
    let (out, map) = (folder.path("out"), folder.path("map"));
    let mut command = Command::new(CZI);
    command.args(["compose", "-", "--out", &out, "--map", &map]);
    let running = waiting(command.args(more));
    meanwhile();
    running.end()
}

#[test]
fn where_the_second_fails_the_first_is_taken_back() {
    let folder = Folder::new("second-fails");
    let made = |name: &str| fs::create_dir(folder.path(name)).unwrap();
    is_failure(&meanwhile(&folder, &[], || made("map")), 1, "map: ");
    assert_eq!(folder.names(), ["map"]);
    fs::remove_dir(folder.path("map")).unwrap();
    is_failure(&meanwhile(&folder, &[], || made("out")), 1, "out: ");
    assert_eq!(folder.names(), ["out"]);
}

#[test]
fn where_the_second_fails_the_old_first_is_put_back() {
    let folder = Folder::new("second-fails-old");
    folder.write("out", b"old plane");
    folder.write("map", b"old map");
    let output = meanwhile(&folder, &["--force"], || {
        fs::remove_file(folder.path("map")).unwrap();
        fs::create_dir(folder.path("map")).unwrap();
    });
    is_failure(&output, 1, "map: another file came to be there");
    assert_eq!(folder.names(), ["map", "out"]);
    assert_eq!(folder.read("out"), b"old plane");
}

#[test]
fn what_came_to_be_there_meanwhile_is_not_replaced() {
    let folder = Folder::new("came-meanwhile");
    let output = meanwhile(&folder, &["--force"], || {
        folder.write("map", b"another's");
    });
    is_failure(&output, 1, "map: ");
    assert_eq!(folder.names(), ["map"]);
    assert_eq!(folder.read("map"), b"another's");
    folder.write("out", b"old");
    let output = meanwhile(&folder, &["--force"], || {
        folder.write("other", b"other");
        fs::rename(folder.path("other"), folder.path("out")).unwrap();
    });
    is_failure(&output, 1, "out: another file came to be there");
    assert_eq!(folder.names(), ["map", "out"]);
    assert_eq!(folder.read("map"), b"another's");
    assert_eq!(folder.read("out"), b"other");
}

/// A limit on the size of files is a full disk: the write fails.
#[test]
fn a_full_disk_leaves_everything_as_it_was() {
    let folder = Folder::new("full-disk");
    let file = sample("mosaic.czi");
    let (out, map) = (folder.path("out"), folder.path("map"));
    // Sixteen blocks of 512 bytes; the map of one column has a byte a row, and a header.
    let limited = "ulimit -f 16; czi compose \"$1\" --out \"$2\" --map \"$3\" --force --window";
    for (window, full) in [
        ("100,60,200,200", "out: "),
        ("100,60,1,65536", "out: "),
        ("100,60,1,8190", "map: "),
    ] {
        folder.write("map", b"old map");
        let output = shell(&format!("{limited} {window}"), &[&file, &out, &map]);
        is_failure(&output, 1, full);
        assert_eq!(folder.names(), ["map"], "{window}");
        assert_eq!(folder.read("map"), b"old map");
    }
}
