//! Full and closed streams, and too little memory: never a panic, never what
//! looks like success.

mod support;

use support::mosaic::{gray8, mosaic, Tile};
use support::{is_failure, said, sample, shell, Folder};

#[test]
fn a_full_or_closed_standard_output_is_a_failure() {
    let file = sample("mosaic.czi");
    for (to, words) in [
        (">/dev/full", "standard output: No space left"),
        (">&-", "standard output is closed"),
        ("1</dev/null", "standard output: Bad file"),
    ] {
        for command in [
            "judge \"$1\"",
            "list \"$1\"",
            "info \"$1\"",
            "tiles \"$1\" --json",
            "count \"$1\"",
            "compose \"$1\"",
            "compose \"$1\" --map -",
            "extract \"$1\" --xml --out -",
            "repack \"$1\" --out -",
            "sample -",
            "--help",
            "--version",
        ] {
            let output = shell(&format!("czi {command} {to}"), &[&file]);
            is_failure(&output, 1, words);
        }
    }
}

#[test]
fn outputs_are_taken_back_where_the_lines_cannot_be_said() {
    let folder = Folder::new("lines");
    let file = sample("mosaic.czi");
    folder.write("out", b"old");
    let arguments = [&file, &folder.path("out"), &folder.path("map")];
    let arguments = arguments.map(String::as_str);
    for to in [
        ">/dev/full",
        ">&-",
        "1</dev/null",
        ">/dev/full 2>&1",
        ">&- 2>&-",
    ] {
        let line = "czi compose \"$1\" --out \"$2\" --map \"$3\" --force";
        let output = shell(&format!("{line} {to}"), &arguments);
        assert_eq!(said(&output).0, 1, "{to}");
        let output = shell(&format!("czi sample \"$3\" {to}"), &arguments);
        assert_eq!(said(&output).0, 1, "{to}");
        for line in [
            "czi repack \"$1\" --out \"$2\" --force",
            "czi repack \"$1\" --out \"$3\"",
        ] {
            let output = shell(&format!("{line} {to}"), &arguments);
            assert_eq!(said(&output).0, 1, "{to}");
        }
        assert_eq!(folder.names(), ["out"], "{to}");
        assert_eq!(folder.read("out"), b"old", "{to}");
    }
    // The lines go to standard error here.
    for to in ["2>/dev/full", "2>&-", "2</dev/null"] {
        let line = "czi compose \"$1\" --out \"$2\" --map - --force";
        let output = shell(&format!("{line} {to}"), &arguments);
        assert_eq!(said(&output).0, 1, "{to}");
        assert_eq!(folder.names(), ["out"], "{to}");
        assert_eq!(folder.read("out"), b"old", "{to}");
    }
}

#[test]
fn a_full_or_closed_standard_error_keeps_the_exit_code() {
    for to in ["2>/dev/full", "2>&-", "2</dev/null"] {
        for (command, file, code) in [
            ("judge", "refusal-09.czi", 2),
            ("count", "empty.czi", 2),
            ("judge", "nothing", 1),
            ("paint", "mosaic.czi", 1),
        ] {
            let output = shell(&format!("czi {command} \"$1\" {to}"), &[&sample(file)]);
            assert_eq!(said(&output), (code, String::new(), String::new()), "{to}");
        }
        let accepted = format!("czi judge \"$1\" {to}");
        assert_eq!(
            said(&shell(&accepted, &[&sample("mosaic.czi")])).0,
            0,
            "{to}"
        );
    }
}

#[test]
fn a_closed_standard_input_is_no_empty_file() {
    for command in [
        "judge",
        "list",
        "count",
        "compose",
        "repack --out ./new.czi",
    ] {
        let output = shell(&format!("czi {command} - <&-"), &[]);
        is_failure(&output, 1, "standard input is closed");
    }
}

#[test]
fn a_reader_that_goes_away_is_a_failure() {
    let line = "{ czi tiles \"$1\" 2>\"$2\"; echo $? >\"$3\"; } | true";
    let folder = Folder::new("pipe");
    let (said, code) = (folder.path("said"), folder.path("code"));
    // Often the pipe is gone before the command writes; a large plane is sure to see it.
    shell(
        &line.replace(
            "tiles \"$1\"",
            "compose \"$1\" --window 0,0,1000,1000 --out -",
        ),
        &[&sample("mosaic.czi"), &said, &code],
    );
    assert_eq!(folder.read("code"), b"1\n");
    let said = String::from_utf8(folder.read("said")).unwrap();
    assert!(said.contains("standard output: Broken pipe"), "{said}");
}

/// From so little that it hardly starts to enough: always one line, and no output.
#[test]
fn too_little_memory_is_one_line() {
    let folder = Folder::new("memory");
    let tiles: Vec<Tile> = (0..300).map(|k| gray8(k, 0, 1, 1)).collect();
    let many = folder.write("many", &mosaic(&tiles));
    let (out, map) = (folder.path("out"), folder.path("map"));
    let limited = |kib: u32, words: &str| {
        let line = format!("export RUST_BACKTRACE=1; ulimit -v {kib}; czi {words}");
        shell(&line, &[&sample("mosaic.czi"), &out, &map, &many])
    };
    let starts = |kib: &u32| limited(*kib, "--version").status.success();
    let least = (1000..100_000).step_by(64).find(starts).expect("it starts");
    let mut short = 0;
    for (words, steps) in [
        (
            "compose \"$1\" --window 0,0,3000,3000 --out \"$2\" --map \"$3\"",
            20,
        ),
        (
            "compose \"$1\" --window 0,0,3000,3000 --map - --composer both",
            20,
        ),
        ("count \"$1\" --window 0,0,3000,3000 --jobs 8", 20),
        ("count \"$1\" --window 0,0,3000,30000 --jobs 1000", 20),
        ("tiles \"$4\" --json", 12),
        ("info \"$4\"", 12),
        ("extract - --xml --out \"$2\" <\"$1\"", 12),
        ("repack \"$4\" --out \"$2\"", 20),
        ("repack - --out - <\"$4\"", 20),
    ] {
        for step in 0..steps {
            let output = limited(least + step * step * 16, words);
            if output.status.success() {
                let _ = std::fs::remove_file(&out);
                let _ = std::fs::remove_file(&map);
                continue;
            }
            let (code, out, err) = said(&output);
            assert_eq!((code, out.as_str()), (1, ""), "{words}: {err}");
            assert!(err.starts_with("czi: "), "{words}: {err}");
            assert_eq!(err.matches('\n').count(), 1, "{words}: {err}");
            assert_eq!(folder.names(), ["many"], "{words}");
            short += 1;
        }
    }
    assert!(short > 40, "only {short} runs had too little memory");
}
