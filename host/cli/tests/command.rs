//! The command as a person runs it: answers, refusals, bad arguments.

mod support;

use std::fs;
use std::io::Write;
use std::process::{Command, Stdio};
use support::{czi, fails, said, sample, samples, Folder};

#[test]
fn list_prints_the_text_in_every_case() {
    for name in ["mosaic", "smallest", "empty", "over", "refusal-16"] {
        let wanted = fs::read_to_string(sample(&format!("{name}.txt"))).unwrap();
        let got = said(&czi(&["list", &sample(&format!("{name}.czi"))]));
        assert_eq!(got, (0, wanted, String::new()), "{name}");
    }
}

#[test]
fn info_says_the_figures_of_a_file_of_any_size() {
    let (code, out, _) = said(&czi(&["info", &sample("over.czi")]));
    assert_eq!(code, 0);
    assert!(
        out.starts_with("bytes=65568\n") && out.contains("\nbox=none\n"),
        "{out}"
    );
    let mut wanted = fs::read_to_string(sample("mosaic.txt")).unwrap();
    wanted += "release=1.2\npyramid_tiles=0\nmasked_tiles=1\ntype=gray8 tiles=4\n";
    wanted += "scene=0 tiles=4 pyramid_tiles=0 box=100,60,143,88\n";
    wanted += "letter=C tiles=4 least=0 greatest=0 layered_tiles=0\n";
    wanted += "letter=M tiles=4 least=0 greatest=3 layered_tiles=0\n";
    wanted += "letter=S tiles=4 least=0 greatest=0 layered_tiles=0\n";
    wanted += "attachment=0 bytes=40 guid={13121110-1514-1716-1819-1A1B1C1D1E1F} ";
    wanted += "type=\"CZTIMS\" name=\"TimeStamps\"\n";
    assert_eq!(said(&czi(&["info", &sample("mosaic.czi")])).1, wanted);
}

#[test]
fn judge_says_the_number_the_place_and_the_words() {
    let accepted = said(&czi(&["judge", &sample("mosaic.czi")]));
    assert_eq!(accepted, (0, "accepted\n".to_string(), String::new()));
    let words = "refused 9 at 92: a directory or the metadata is said to be where no such \
                 segment begins; czi help refusals says more";
    fails(&["judge", &sample("refusal-09.czi")], 2, words);
    fails(&["info", &sample("refusal-09.czi")], 2, words);
    fails(
        &["judge", &sample("empty.czi")],
        2,
        "refused 1 at 0: length 0",
    );
    fails(&["judge", &sample("cut.czi")], 2, "refused 3 at 128: ");
}

#[test]
fn files_that_are_missing_or_no_files() {
    for command in ["list", "info", "judge", "tiles", "count", "compose"] {
        fails(&[command, &sample("no such file")], 1, "no such file: ");
        fails(&[command, &samples().display().to_string()], 1, "directory");
        let below = sample("mosaic.czi/below");
        fails(&[command, &below], 1, "mosaic.czi/below: ");
        fails(&[command], 1, "FILE is missing");
        fails(&[command, "--what", "a"], 1, "--what");
        fails(&[command, "a", "b"], 1, "\"b\" is one argument too many");
    }
    fails(&[], 1, "a command is missing");
    fails(&["paint"], 1, "there is no command \"paint\"");
    fails(&["sample"], 1, "OUT.czi is missing");
}

#[test]
fn a_pipe_is_read_to_its_end() {
    for name in ["/dev/stdin", "-"] {
        reads_a_pipe(name);
    }
}

#[test]
fn standard_input_that_is_a_file_is_read_from_where_it_stands() {
    let folder = Folder::new("stdin");
    let bytes = fs::read(sample("mosaic.czi")).unwrap();
    let path = folder.write("behind", &[b"12345", &bytes[..]].concat());
    let wanted = fs::read_to_string(sample("mosaic.txt")).unwrap();
    let line = "exec <\"$1\"; dd bs=1 count=5 of=\"$2\" 2>\"$2\"; czi list -";
    let output = support::shell(line, &[&path, &folder.path("x")]);
    assert_eq!(said(&output), (0, wanted.clone(), String::new()));
    let output = support::shell("czi list - <\"$1\"", &[&sample("mosaic.czi")]);
    assert_eq!(said(&output), (0, wanted, String::new()));
}

fn reads_a_pipe(name: &str) {
    let mut command = Command::new(support::CZI);
    let mut running = command
        .args(["list", name])
        .stdin(Stdio::piped())
        .stdout(Stdio::piped())
        .spawn()
        .expect("the command runs");
    let bytes = fs::read(sample("mosaic.czi")).unwrap();
    let mut pipe = running.stdin.take().expect("a pipe");
    pipe.write_all(&bytes).expect("all is read");
    drop(pipe);
    let output = running.wait_with_output().expect("it ends");
    assert_eq!(output.stdout, fs::read(sample("mosaic.txt")).unwrap());
}

#[test]
fn help_is_there_for_each_command() {
    for command in [
        "list", "info", "judge", "tiles", "count", "compose", "quote", "repack", "extract",
        "sample",
    ] {
        let (code, out, err) = said(&czi(&[command, "--help"]));
        assert_eq!((code, err.as_str()), (0, ""));
        assert!(out.starts_with(&format!("usage: czi {command}")), "{out}");
        assert!(!out.contains(['@', '%', '~']) && out.lines().all(|line| line.len() <= 82));
        assert_eq!(out.contains("--release 1.02|1.2"), command != "sample");
        assert_eq!(said(&czi(&["help", command])), (code, out, err));
    }
    let (code, refusals, _) = said(&czi(&["help", "refusals"]));
    assert!(code == 0 && refusals.lines().all(|line| line.len() <= 82));
    let numbers = (1..=25).filter(|number| *number != 19);
    for number in numbers.chain([30, 34, 35, 36]) {
        assert!(refusals.contains(&format!("\n{number:>2}  ")), "{number}");
    }
    fails(&["help", "paint"], 1, "there is no command \"paint\"");
    // What is wrong with an argument names the help about its command.
    let named = "--what here (czi help count says how it is called)";
    fails(&["count", "a", "--what"], 1, named);
    let named = "there is no option -w here (czi help judge says how it is called)";
    fails(&["judge", "-w"], 1, named);
    fails(&["judge", "--", "-w"], 1, "-w: No such file");
    fails(&["sample"], 1, "(czi help sample says how it is called)");
    fails(&["paint"], 1, "(czi help says how it is called)");
    fails(&["refusals", "a"], 1, "there is no command \"refusals\"");
    fails(&["paint", "--help"], 1, "there is no command \"paint\"");
    let version = format!("czi {}\n", env!("CARGO_PKG_VERSION"));
    assert_eq!(said(&czi(&["--version"])), (0, version, String::new()));
    for word in ["help", "--help", "-h"] {
        let (code, out, _) = said(&czi(&[word]));
        assert!(code == 0 && out.contains("exit codes"), "{out}");
    }
}

#[test]
fn the_sample_is_the_mosaic() {
    let folder = Folder::new("sample");
    let path = folder.path("a.czi");
    assert_eq!(said(&czi(&["sample", &path])).0, 0);
    assert_eq!(
        fs::read(&path).unwrap(),
        fs::read(sample("mosaic.czi")).unwrap()
    );
    assert_eq!(folder.names(), ["a.czi"]);
    fails(&["sample", &folder.path("none/a.czi")], 1, "a.czi: ");
    fails(
        &["sample", &folder.0.display().to_string()],
        1,
        "no plain file",
    );
    fails(&["sample", "/dev/null"], 1, "no plain file");
    fails(&["sample", "/"], 1, "/");
    assert_eq!(folder.names(), ["a.czi"]);
}

mod compose {
    use super::*;

    /// Composes the mosaic's box with more arguments; the folder's files are out and map.
    fn mosaic(folder: &Folder, more: &[&str]) -> Vec<String> {
        let file = sample("mosaic.czi");
        let (out, map) = (folder.path("plane.raw"), folder.path("map.pbm"));
        let fixed = ["compose", &file, "--out", &out, "--map", &map];
        let words = fixed.iter().chain(more);
        words.map(|word| word.to_string()).collect()
    }

    fn run(folder: &Folder, more: &[&str]) -> (i32, String, String) {
        let words = mosaic(folder, more);
        let words: Vec<&str> = words.iter().map(String::as_str).collect();
        said(&czi(&words))
    }

    fn refused(folder: &Folder, more: &[&str], code: i32, line: &str) {
        let words = mosaic(folder, more);
        let words: Vec<&str> = words.iter().map(String::as_str).collect();
        fails(&words, code, line);
        assert!(folder.names().is_empty(), "{:?}", folder.names());
    }

    const BOX: [&str; 4] = ["--window", "100,60,43,28", "--type", "0"];

    #[test]
    fn both_composers_agree_and_both_files_are_written() {
        let folder = Folder::new("both");
        let more = [&BOX[..], &["--masks", "on", "--composer", "both"]].concat();
        let wanted = "pixels=1204\ncovered=1138\nstored=1500 plain, 1138 quick\n\
                      both composers agree\n\
                      tiles=4 selected=4 meet=4 release=1.2 masks=on scene=0 type=gray8 \
                      window=100,60,43,28\n";
        assert_eq!(run(&folder, &more), (0, wanted.to_string(), String::new()));
        assert_eq!(folder.names(), ["map.pbm", "plane.raw"]);
        assert_eq!(fs::read(folder.path("plane.raw")).unwrap().len(), 1204);
        let map = fs::read(folder.path("map.pbm")).unwrap();
        assert!(map.starts_with(b"P4\n43 28\n"));
        assert_eq!(map.len(), 9 + 6 * 28);
        let ones: u32 = map[9..].iter().map(|b| b.count_ones()).sum();
        assert_eq!(ones, 1138);
    }

    #[test]
    fn each_composer_writes_the_same() {
        let mut planes = Vec::new();
        for composer in ["plain", "quick"] {
            let folder = Folder::new(composer);
            let more = [&BOX[..], &["--background", "7f", "--composer", composer]].concat();
            assert_eq!(run(&folder, &more).0, 0);
            planes.push(fs::read(folder.path("plane.raw")).unwrap());
        }
        assert_eq!(planes[0], planes[1]);
        assert_eq!(planes[0][42], 0x7F, "the corner that no tile covers");
    }

    #[test]
    fn starts_and_scenes_select() {
        for (more, covered) in [
            (["--start", "C=1"], "covered=0\n"),
            (["--scene", "1"], "covered=0\n"),
            (["--start", "S=1"], "covered=0\n"),
            (["--scene", "any"], "covered=1174\n"),
            (["--type", "gray8"], "covered=1174\n"),
        ] {
            let folder = Folder::new(&format!("select-{}{}", more[0], more[1]));
            let mut all = vec!["--window", "100,60,43,28"];
            if more[0] != "--type" {
                all.extend(["--type", "0"]);
            }
            all.extend(more);
            let (code, out, err) = run(&folder, &all);
            assert!(code == 0 && out.contains(covered), "{more:?}: {out}{err}");
        }
    }

    #[test]
    fn refusals_of_the_question() {
        let folder = Folder::new("refusals");
        let window = |window| ["--type", "0", "--window", window];
        for (wrong, half) in [
            ("0,0,65537,1", "(the width is 65537)"),
            ("0,0,1,65537", "(the height is 65537)"),
            ("0,0,0,1", "(the width is 0)"),
            ("0,0,4294967295,4294967295", "(the width is 4294967295)"),
        ] {
            refused(&folder, &window(wrong), 2, "refused 20 at 0: window side");
            refused(&folder, &window(wrong), 2, half);
        }
        let edge = "(the right edge is 2147483648)";
        refused(&folder, &window("2147483647,0,1,1"), 2, edge);
        let typed = |t| ["--window", "100,60,4,4", "--type", t];
        refused(&folder, &typed("12"), 2, "refused 21 at 0: asked type");
        refused(&folder, &typed("1"), 2, "refused 23 at ");
        let has = "(tile 0 has gray8, asked for is gray16)";
        refused(&folder, &typed("Gray16"), 2, has);
        for hex in ["", "0011", "001122"] {
            let more = [&BOX[..], &["--background", hex]].concat();
            refused(&folder, &more, 2, "refused 21 at 0: ");
        }
    }

    #[test]
    fn a_refused_file_leaves_nothing() {
        let folder = Folder::new("refused-file");
        let (out, map) = (folder.path("p"), folder.path("m"));
        let file = sample("refusal-12.czi");
        let fixed = ["compose", &file, "--out", &out, "--map", &map];
        fails(&[&fixed[..], &BOX[..]].concat(), 2, "refused 12 at ");
        assert!(folder.names().is_empty());
    }

    #[test]
    fn bad_arguments() {
        let folder = Folder::new("bad");
        let with = |more: &[&'static str]| [&BOX[..], more].concat();
        for (more, line) in [
            (vec!["--window", "0,0,1", "--type", "0"], "L,T,W,H"),
            (vec!["--window", "0,0,1,1,1", "--type", "0"], "L,T,W,H"),
            (vec!["--window", "0,0,-1,1", "--type", "0"], "\"-1\""),
            (
                vec!["--window", "2147483648,0,1,1", "--type", "0"],
                "2147483648",
            ),
            (
                vec!["--window", "0,0,1,1", "--type", "grey"],
                "bgr24, bgr48, bgrfloat",
            ),
            (with(&["--type", "0"]), "--type is given twice"),
            (with(&["--background", "0"]), "hex"),
            (with(&["--background", "xy"]), "hex"),
            (with(&["--masks", "yes"]), "on or off"),
            (with(&["--composer", "slow"]), "plain or quick or both"),
            (with(&["--scene", "all"]), "\"all\""),
            (with(&["--scene", "any", "--start", "S=1"]), "--scene any"),
            (with(&["--scene", "1", "--start", "S=1"]), "given twice"),
            (with(&["--start", "C"]), "C=1"),
            (with(&["--start", "c=1"]), "C=1"),
            (with(&["--start", "C=x"]), "\"x\""),
            (with(&["--start", "M=1"]), "M has no start"),
            (with(&["--start"]), "wants a value"),
            (with(&["--what", "1"]), "--what"),
            (vec!["--window"], "--window wants a value"),
            (with(&["--start", "--masks"]), "--start wants a value"),
            (with(&["--force=1"]), "--force takes no value"),
            (with(&["--force", "--force"]), "--force is given twice"),
            (with(&["--jobs", "2"]), "no option --jobs here"),
            (with(&["another"]), "\"another\" is one argument too many"),
        ] {
            refused(&folder, &more, 1, line);
        }
        let file = sample("mosaic.czi");
        let out = folder.path("same");
        let same = ["compose", &file, "--out", &out, "--map", &out];
        fails(&[&same[..], &BOX[..]].concat(), 1, "the same file");
        let twice = ["compose", &file, "--out", "-", "--map=-"];
        fails(&[&twice[..], &BOX[..]].concat(), 1, "both -");
        let missing = ["compose", "--out", &out, "--map", "m"];
        fails(&[&missing[..], &BOX[..]].concat(), 1, "FILE is missing");
    }

    #[test]
    fn an_output_that_cannot_be_written_leaves_nothing() {
        let folder = Folder::new("unwritable");
        let file = sample("mosaic.czi");
        let (out, map) = (folder.path("plane.raw"), folder.path("none/map.pbm"));
        let fixed = ["compose", &file, "--out", &out, "--map", &map];
        fails(&[&fixed[..], &BOX[..]].concat(), 1, "map.pbm: ");
        assert!(folder.names().is_empty());
    }
}
