//! Quote sheets: what is printed and left, and what a person is told whose settings
//! are refused.

mod support;

use std::fs;
use std::os::unix::fs::symlink;
use support::mosaic::{gray16, gray8, mosaic, Tile};
use support::{czi, fails, is_failure, said, sample, samples, shell, Folder};

const SOUND: &str = "edition=2\npitch_x=0.325\npitch_y=0.325\n";
const SHEET: &str = "covered=1138\narea_nm2=120201250\n";
const READ: &str = "area_mm2=0.000120201250\npixels=1204\nwidth_mm=0.013975 height_mm=0.009100\n\
                    edition=2 pitch_x_nm=325 pitch_y_nm=325\n\
                    note: the settings have no line masks=; edition 2 means on\n";
const CHOSEN: &str = "tiles=4 selected=4 meet=4 release=1.2 masks=on scene=any type=gray8 \
                      window=100,60,43,28\n";

/// The mosaic quoted by settings of that text; `folder` is the test's own.
fn quoted(folder: &Folder, settings: impl AsRef<[u8]>, more: &[&str]) -> (i32, String, String) {
    let path = folder.write("quote.txt", settings.as_ref());
    let file = sample("mosaic.czi");
    let fixed = ["quote", &file, "--settings", &path];
    said(&czi(&[&fixed[..], more].concat()))
}

/// The same, refused: the line, without what is the same for all.
fn refused(folder: &Folder, settings: impl AsRef<[u8]>) -> String {
    let (code, out, err) = quoted(folder, settings, &[]);
    assert_eq!((code, out.as_str()), (2, ""), "{err}");
    assert_eq!(err.matches('\n').count(), 1, "{err}");
    let line = err.strip_prefix("czi: refused ").expect(&err);
    let line = line.strip_suffix("); czi help refusals says more\n");
    let (number, more) = line.expect(&err).split_once(": ").expect(&err);
    let path = format!("({}, ", folder.path("quote.txt"));
    let (_, more) = more.split_once(&path).expect(&err);
    format!("{number}: {more}")
}

#[test]
fn standard_output_is_the_sheet_and_nothing_else() {
    let folder = Folder::new("quote-sheet");
    let (code, out, err) = quoted(&folder, SOUND, &["--scene", "any"]);
    assert_eq!((code, out.as_str()), (0, SHEET), "{err}");
    assert_eq!(err, format!("{READ}{CHOSEN}"));
    assert_eq!(
        quoted(&folder, SOUND, &["--scene=any", "--sheet=-"]),
        (code, out, err)
    );
    assert_eq!(folder.names(), ["quote.txt"]);
}

#[test]
fn stored_settings_give_the_stored_sheets() {
    let mut seen = 0;
    for entry in fs::read_dir(samples()).unwrap() {
        let path = entry.unwrap().path();
        if path.extension().is_some_and(|e| e == "sheet") {
            let settings = path.with_extension("txt").display().to_string();
            let file = sample("mosaic.czi");
            let asked = ["quote", &file, "--settings", &settings, "--scene", "any"];
            let (code, out, err) = said(&czi(&asked));
            assert_eq!(
                (code, out),
                (0, fs::read_to_string(&path).unwrap()),
                "{err}"
            );
            seen += 1;
        }
    }
    assert!(seen >= 3);
    let comma = sample("quote-comma.txt");
    let words = "quote-comma.txt, line 2, column 10: decimal comma? write 1.25, not 1,25; there \
                 are 2 commas); czi help refusals says more";
    fails(
        &["quote", &sample("mosaic.czi"), "--settings", &comma],
        2,
        words,
    );
}

#[test]
fn sheet_and_map_are_left_in_files() {
    let folder = Folder::new("quote-files");
    let (sheet, map) = (folder.path("sheet"), folder.path("map"));
    let asked = ["--scene=any", "--sheet", &sheet, "--map", &map];
    let (code, out, err) = quoted(&folder, SOUND, &asked);
    assert_eq!((code, err.as_str()), (0, ""));
    assert_eq!(out, format!("{SHEET}{READ}{CHOSEN}"));
    assert_eq!(folder.read("sheet"), SHEET.as_bytes());
    let (file, other) = (sample("mosaic.czi"), folder.path("other"));
    let compose = ["compose", &file, "--masks=on", "--scene=any", "--map"];
    assert_eq!(said(&czi(&[&compose[..], &[&other]].concat())).0, 0);
    assert_eq!(folder.read("map"), folder.read("other"));
    fs::remove_file(&other).unwrap();
    // Files that are there are replaced by force alone.
    let words = "it is there already; --force replaces it";
    let (code, out, err) = quoted(&folder, SOUND, &asked);
    assert!(code == 1 && out.is_empty() && err.contains(words), "{err}");
    let off = format!("{SOUND}masks=off\n");
    let (code, out, _) = quoted(&folder, &off, &[&asked[..], &["--force"]].concat());
    assert!(code == 0 && out.contains(" masks=off "), "{out}");
    assert!(folder.read("sheet").starts_with(b"covered=1174\n"));
    // The map on standard output, and the lines on standard error.
    let line = "czi quote \"$1\" --settings \"$2\" --sheet \"$3\" --force --map -";
    let settings = folder.path("quote.txt");
    let output = shell(line, &[&file, &settings, &sheet]);
    assert_eq!(output.stdout, folder.read("map"));
    let (code, _, err) = said(&output);
    assert!(
        code == 0 && err.starts_with("covered=1174\narea_nm2="),
        "{err}"
    );
    assert_eq!(folder.names(), ["map", "quote.txt", "sheet"]);
}

#[test]
fn masks_are_as_line_and_edition_say() {
    let folder = Folder::new("quote-masks");
    for (edition, line, covered, masks) in [
        (1, "", 1174, "off"),
        (1, "masks=off\n", 1174, "off"),
        (1, "masks=on\n", 1138, "on"),
        (2, "", 1138, "on"),
        (2, "masks=off\n", 1174, "off"),
        (2, "masks=on\n", 1138, "on"),
    ] {
        let settings = format!("edition={edition}\npitch_x=1\npitch_y=00001.5\n{line}");
        let (code, out, err) = quoted(&folder, &settings, &[]);
        let area = covered * 1_000 * 1_500;
        assert_eq!(
            (code, out),
            (0, format!("covered={covered}\narea_nm2={area}\n"))
        );
        assert!(err.contains(&format!(" masks={masks} scene=0 ")), "{err}");
        let read = format!("edition={edition} pitch_x_nm=1000 pitch_y_nm=1500\n");
        assert!(err.contains(&read), "{err}");
        let note =
            format!("note: the settings have no line masks=; edition {edition} means {masks}\n");
        assert_eq!(err.contains(&note), line.is_empty(), "{err}");
        assert!(!err.contains("has no masks"), "{err}");
        let (_, out, err) = quoted(&folder, &settings, &["--release", "1.02"]);
        assert!(out.starts_with("covered=1174\n"), "{out}");
        assert!(
            err.contains(&format!("release=1.02 masks={masks} ")),
            "{err}"
        );
        let note = "note: release 1.02 has no masks\n";
        assert_eq!(err.contains(note), masks == "on", "{err}");
    }
}

/// What a person should see before the sheet is used: the window in millimetres, two
/// pitches, and tiles that are left out.
#[test]
fn notes_are_said_before_the_last_line() {
    let folder = Folder::new("quote-notes");
    let settings = "edition=1\npitch_x=65\npitch_y=0.065\nmasks=off\n";
    let path = folder.write("quote.txt", settings.as_bytes());
    let other = Tile {
        scene: 3,
        ..gray8(10, 0, 4, 5)
    };
    let tiles = [gray8(0, 0, 4, 5), other, gray8(20, 0, 4, 5)];
    let file = folder.write("a.czi", &mosaic(&tiles));
    let notes = |more: &[&str]| {
        let fixed = ["quote", &file, "--settings", &path];
        let (code, _, err) = said(&czi(&[&fixed[..], more].concat()));
        assert_eq!(code, 0, "{err}");
        let lines: Vec<&str> = err.lines().collect();
        assert!(lines.last().unwrap().starts_with("tiles=3 "), "{err}");
        assert_eq!(lines[2], "width_mm=1.560000 height_mm=0.000325");
        let (before, behind) = lines.split_at(4);
        assert!(before.iter().all(|line| !line.starts_with("note: ")));
        behind[..behind.len() - 1].join("\n")
    };
    let pitches = "note: pitch_x and pitch_y differ";
    let left_out = |n: u32| {
        let why = "tiles are left out (scene, channel, layer or another start)";
        format!("{pitches}\nnote: {n} of 3 {why}")
    };
    assert_eq!(notes(&["--scene=any"]), pitches);
    assert_eq!(notes(&[]), left_out(1));
    assert_eq!(notes(&["--scene=3"]), left_out(2));
    assert_eq!(notes(&["--scene=any", "--start=C=1"]), left_out(3));
    // Pyramid tiles never count.
    let (file, window) = (sample("pyramids.czi"), "--window=0,0,1,1");
    let (code, _, err) = said(&czi(&["quote", &file, "--settings", &path, window]));
    assert!(code == 0 && !err.contains("left out"), "{err}");
}

#[test]
fn a_comma_is_shown_mended() {
    let folder = Folder::new("quote-comma");
    let thousands = "no comma stands between thousands either";
    let unit = "a pitch is in micrometres, with a point and without a unit";
    let blanks =
        "a comma, and a blank: pitch is in micrometres, 0.001 to 65.535, with a point and \
                  without blanks";
    let end = "no comma stands at a line's end";
    for (pitch, words) in [
        ("1,25", "decimal comma? write 1.25, not 1,25".to_string()),
        ("0,325", "decimal comma? write 0.325, not 0,325".to_string()),
        ("65,5", "decimal comma? write 65.5, not 65,5".to_string()),
        // Before decimals, or between thousands.
        (
            "1,250",
            format!("a comma: if 1.250 micrometres are meant, write 1.250; {thousands}"),
        ),
        (
            "65,535",
            format!("a comma: if 65.535 micrometres are meant, write 65.535; {thousands}"),
        ),
        // With a unit no number is offered: it could be a thousand times too large.
        ("65,5 nm", format!("a comma, and a unit \"nm\": {unit}")),
        ("65,5nm", format!("a comma, and a unit \"nm\": {unit}")),
        ("0,65 um", format!("a comma, and a unit \"um\": {unit}")),
        (
            "0,65 \u{b5}m/px",
            format!("a comma, and a unit \"\u{b5}m\": {unit}"),
        ),
        ("0,00125 mm", format!("a comma, and a unit \"mm\": {unit}")),
        (
            "1,25 x",
            format!("a comma, and \"x\" behind the number: {unit}"),
        ),
        (
            "1,25e1",
            format!("a comma, and \"e1\" behind the number: {unit}"),
        ),
        (" 1,25", blanks.to_string()),
        ("1,25 ", blanks.to_string()),
        ("1 250,5", blanks.to_string()),
        ("0.325,", format!("{end}: write pitch_x=0.325")),
        ("1,", end.to_string()),
        ("325,", end.to_string()),
    ] {
        let settings = SOUND.replacen("0.325", pitch, 1);
        let place = 18 + pitch.find(',').unwrap();
        let wanted = format!("34 at {place}: line 2, column {}: {words}", place - 9);
        assert_eq!(refused(&folder, &settings), wanted);
    }
    for pitch in [
        "1,25,",
        ",,",
        "1,250,000",
        "1,250.5",
        "65,536",
        "1,2345",
        ",5",
        "325,5",
        "0,0005",
        "0,000",
    ] {
        let line = refused(&folder, SOUND.replacen("0.325", pitch, 1));
        let (at, words) = line.split_once(": ").unwrap();
        let comma = 18 + pitch.find(',').unwrap();
        assert_eq!(at, format!("34 at {comma}"));
        assert!(
            words.contains("a comma: a pitch is one to five digits, "),
            "{line}"
        );
        assert!(
            words.contains(thousands) && !words.contains("write"),
            "{line}"
        );
    }
    // Anywhere, and before all other faults; the first is shown.
    let line = refused(&folder, "Edition: 1\r\n\u{e9}\u{e9},,");
    let wanted =
        "34 at 16: line 2, column 3: no comma may stand in settings, wherever it is; there \
                  are 2 commas";
    assert_eq!(line, wanted);
    let line = refused(&folder, format!("\u{feff}{}", SOUND.replace('.', ",")));
    assert!(line.starts_with("34 at 22: line 2, column 10: decimal comma? write 0.325, "));
    let windows = SOUND.replace('.', ",").replace('\n', "\r\n");
    let line = refused(&folder, &windows);
    assert!(line.starts_with("34 at 20: line 2, column 10: decimal comma? write 0.325, "));
    let line = refused(&folder, windows.replace('\n', ""));
    assert!(line.starts_with("34 at 19: line 2, column 10: decimal comma? write 0.325, "));
    for (wrong, words) in [
        (
            "1.25 um, about",
            "no comma may stand in settings, wherever it is",
        ),
        (
            "0.5, pitch_y=0.5",
            "no comma stands between settings, each has ",
        ),
    ] {
        let line = refused(&folder, SOUND.replacen("0.325", wrong, 1));
        assert!(line.contains(words) && !line.contains("write"), "{line}");
    }
    for (line, words) in [
        (
            "edition=2,",
            "no comma stands at a line's end: write edition=2",
        ),
        ("edition=3,", "no comma stands at a line's end"),
        (
            "edition=1,2",
            "the edition is 1 or 2, and no comma stands there",
        ),
        (
            "edition=2\nmasks=off,",
            "no comma stands at a line's end: write masks=off",
        ),
        (
            "masks=on,off",
            "masks are on or off, and no comma stands there",
        ),
        (
            "pitch_x=1,25\0",
            "a comma, and the file has zero bytes, so it is no plain text",
        ),
    ] {
        let said = refused(&folder, SOUND.replace("edition=2", line));
        assert!(
            said.starts_with("34 at ") && said.ends_with(words),
            "{said}"
        );
    }
}

/// What people write, what is said of it, and what they are told to write instead.
#[test]
fn faults_are_said_with_line_and_column() {
    let folder = Folder::new("quote-faults");
    let pitch = |value: &str| SOUND.replacen("0.325", value, 1);
    let with = |line: &str| format!("{SOUND}{line}");
    let unix = "save the file with line ends of Unix (LF)";
    let masks = ": write masks=on or masks=off; without the line masks are off in edition 1 ";
    let units = "pitch is in micrometres, and no unit is written: write ";
    let thousands = "nothing but a point stands between digits, no blank between thousands";
    for (settings, at, words) in [
        // Line ends, blanks, marks that an editor does not show.
        (SOUND.replace('\n', "\r\n"), "1, column 10", unix),
        (SOUND.replace("2\n", "2\n\r\n"), "2, column 1", unix),
        (
            SOUND.trim_end().to_string(),
            "3, column 14",
            "press Enter behind it",
        ),
        (with("masks=on"), "4, column 9", "press Enter behind it"),
        (
            with("\n"),
            "4, column 1",
            "an empty line: write masks=on or masks=off; without the line masks are off in edition 1 \
             and on in edition 2",
        ),
        (
            with("\nmasks=off\n"),
            "4, column 1",
            "an empty line: remove it",
        ),
        (with(" \t\n").replace('2', "1"), "4, column 1", masks),
        (with("#masks=on\n"), "4, column 1", masks),
        (with("# masks=off\n"), "4, column 1", masks),
        (with(";masks=on\n"), "4, column 1", masks),
        (with("//masks=on\n"), "4, column 1", masks),
        (format!("#masks=off\n{SOUND}"), "1, column 1", masks),
        (with("#\nmasks=on\n"), "4, column 1", "remove the line"),
        (
            with("\x0C\n"),
            "4, column 1",
            "here has to stand masks=, not \"\\u000c\"",
        ),
        (SOUND.replace('\n', "\r"), "1, column 10", unix),
        (
            SOUND.replace("5\n", "5\rx\n"),
            "2, column 14",
            "a carriage return stands in the line",
        ),
        (
            SOUND.replacen("0.325", "0.\0325", 1),
            "2, column 11",
            "a zero byte",
        ),
        (
            with("masks=on\n\n"),
            "5, column 1",
            "an empty line: remove it",
        ),
        (
            with("masks=on\n  "),
            "5, column 1",
            "an empty line: remove it",
        ),
        (
            SOUND.replace("2\n", "2\n\n"),
            "2, column 1",
            "an empty line: remove it",
        ),
        (
            format!("\u{feff}{SOUND}"),
            "1, column 1",
            "a byte order mark",
        ),
        (
            SOUND.replace("edition=", "edition = "),
            "1, column 1",
            "write \"edition=2\": ",
        ),
        (
            SOUND.replace("edition=", "edition= "),
            "1, column 9",
            "write edition=2, without blanks",
        ),
        (
            pitch(" 0.325"),
            "2, column 9",
            "write pitch_x=0.325, without blanks",
        ),
        (
            pitch("0.325 "),
            "2, column 9",
            "write pitch_x=0.325, without blanks",
        ),
        (format!(" {SOUND}"), "1, column 1", "write \"edition=2\": "),
        // Names.
        (
            SOUND.replace("pitch_x", "Pitch_X"),
            "2, column 1",
            "write \"pitch_x=0.325\": the name in small letters",
        ),
        (
            SOUND.replace("pitch_y=", "pitch_y: "),
            "3, column 1",
            "write \"pitch_y=0.325\": ",
        ),
        (
            "pitch_x=1\nedition=1\npitch_y=1\n".to_string(),
            "1, column 1",
            "pitch_x= stands where edition= has to: the order is edition, pitch_x, pitch_y, masks",
        ),
        (
            "edition=1\npitch_y=1\npitch_x=1\n".to_string(),
            "2, column 1",
            "pitch_y= stands where pitch_x= has to",
        ),
        (
            "edition=1\npitch_x=1\nmasks=on\npitch_y=1\n".to_string(),
            "3, column 1",
            "masks= stands where pitch_y= has to",
        ),
        (
            "edition=1\npitch_x=1\nmasks=on\n".to_string(),
            "3, column 1",
            "the line pitch_y= is missing; it stands before masks=",
        ),
        (
            "edition=1\npitch_y=1\nmasks=on\n".to_string(),
            "2, column 1",
            "the line pitch_x= is missing; it stands before pitch_y=",
        ),
        (
            "pitch_x=1\npitch_y=1\n".to_string(),
            "1, column 1",
            "the line edition= is missing; it stands before pitch_x=",
        ),
        (
            SOUND.replace("pitch_y", "pitch_x"),
            "3, column 1",
            "pitch_x= is there a second time, and the line pitch_y= is missing",
        ),
        (
            with("edition=2\n"),
            "4, column 1",
            "edition= is there a second time",
        ),
        (
            with("masks=on\nmasks=off\n"),
            "5, column 1",
            "nothing may stand behind the line masks=, and here stands \"masks=off\"",
        ),
        (
            format!("# job 4711\n{SOUND}"),
            "1, column 1",
            "settings have no comments",
        ),
        (
            SOUND.replace("pitch_x", "pixel"),
            "2, column 1",
            "here has to stand pitch_x=, not \"pixel=0.325\"",
        ),
        (
            "edition=1\n".to_string(),
            "2, column 1",
            "the line pitch_x= is missing",
        ),
        (
            "edition=1\npitch_x=1\n".to_string(),
            "3, column 1",
            "the line pitch_y= is missing",
        ),
        (String::new(), "1, column 1", "the file is empty"),
        ("\n".to_string(), "1, column 1", "an empty line: remove it"),
        (
            SOUND.replace('\n', " ") + "\n",
            "1, column 9",
            "each setting stands in a line of its own",
        ),
        // Values.
        (
            SOUND.replace("=2", "=3"),
            "1, column 9",
            "the edition is 1 or 2, not \"3\"",
        ),
        (
            SOUND.replace("=2", "="),
            "1, column 9",
            "the edition is 1 or 2, not \"\"",
        ),
        (
            with("masks=yes\n"),
            "4, column 7",
            "\"yes\"; write masks=on",
        ),
        (with("masks=ON\n"), "4, column 7", "\"ON\"; write masks=on"),
        (
            with("masks= off\n"),
            "4, column 7",
            "\" off\"; write masks=off",
        ),
        (with("masks=0\n"), "4, column 7", "\"0\"; write masks=off"),
        (
            with("masks=\n"),
            "4, column 7",
            "masks are on or off, in small letters, not \"\"",
        ),
        (pitch("1.25 um"), "2, column 9", &format!("{units}1.25")),
        (pitch("1.25um"), "2, column 9", &format!("{units}1.25")),
        (
            pitch("1.25 \u{b5}m"),
            "2, column 9",
            &format!("{units}1.25"),
        ),
        (
            pitch("1.25\u{3bc}m"),
            "2, column 9",
            &format!("{units}1.25"),
        ),
        (pitch("325 nm"), "2, column 9", &format!("{units}0.325")),
        (pitch("1250nm"), "2, column 9", &format!("{units}1.25")),
        (
            pitch("0.0325 nm"),
            "2, column 9",
            "\"nm\" is no micrometre",
        ),
        (
            pitch("0.00125mm"),
            "2, column 9",
            "and no unit is written; \"mm\" is no micrometre",
        ),
        // What would be refused is not offered.
        (
            pitch("325 um"),
            "2, column 9",
            "pitch is in micrometres, 0.001 to 65.535, and no unit is written",
        ),
        (
            pitch("."),
            "2, column 9",
            "a digit has to stand before the point, one to three behind it; pitch is",
        ),
        (
            pitch(".0005"),
            "2, column 9",
            "a digit has to stand before the point, one to three behind it; pitch is",
        ),
        (
            pitch("325."),
            "2, column 9",
            "a digit has to stand behind the point; pitch is in micrometres",
        ),
        (
            pitch(" 99999 "),
            "2, column 9",
            "no blanks; besides, it comes to 99999000 nanometres",
        ),
        (
            SOUND.replacen("pitch_x=0.325", "pitch_x = 325", 1),
            "2, column 1",
            "then =, and no blanks; besides, it comes to 325000 nanometres",
        ),
        (
            SOUND.replace("edition=2", "Edition = 3"),
            "1, column 1",
            "then =, and no blanks; besides, the edition is 1 or 2, not \"3\"",
        ),
        (
            with("Masks=ON\n"),
            "4, column 1",
            "write \"masks=on\": the name in small letters",
        ),
        (
            with("Masks = maybe\n"),
            "4, column 1",
            "besides, masks are on or off, in small letters, not \"maybe\"",
        ),
        (pitch("1 mm"), "2, column 9", "\"mm\" is no micrometre"),
        (
            pitch("1.25 x"),
            "2, column 9",
            "nothing may stand behind the number, and here stands \"x\"",
        ),
        (
            pitch("325"),
            "2, column 9",
            "it comes to 325000 nanometres, and 1 to 65535 are taken; pitch is in micrometres, \
             0.001 to 65.535: if 325 nanometres are meant, write 0.325",
        ),
        (
            pitch("65.536"),
            "2, column 9",
            "it comes to 65536 nanometres, and 1 to 65535 are taken",
        ),
        (
            pitch("0.000"),
            "2, column 9",
            "it comes to 0 nanometres, and 1 to 65535 are taken",
        ),
        (
            pitch("99999"),
            "2, column 9",
            "it comes to 99999000 nanometres",
        ),
        (pitch(".325"), "2, column 9", "write 0.325"),
        (pitch("3."), "2, column 9", "behind the point: write 3"),
        (
            pitch("0.3250"),
            "2, column 9",
            "at most three digits may stand behind the point",
        ),
        (
            pitch("000001"),
            "2, column 9",
            "at most five digits may stand before the point",
        ),
        (pitch("1.250.000"), "2, column 9", "there is a second point"),
        (pitch("+1"), "2, column 9", "no sign may stand before"),
        (pitch("-1"), "2, column 9", "no sign may stand before"),
        (
            pitch("3.25e-1"),
            "2, column 9",
            "a power of ten is not taken",
        ),
        (pitch(""), "2, column 9", "the number is missing"),
        (
            pitch("\"1.25\""),
            "2, column 9",
            "a pitch is one to five digits",
        ),
        (pitch("1 250"), "2, column 9", thousands),
        (pitch("1'250"), "2, column 9", thousands),
        (pitch("0. 325"), "2, column 9", thousands),
        (
            pitch("\u{661}"),
            "2, column 9",
            "a pitch is one to five digits",
        ),
    ] {
        let line = refused(&folder, &settings);
        let wanted = format!("35 at 0: line {at}: ");
        assert!(
            line.starts_with(&wanted) && line.contains(words),
            "{settings:?}: {line}"
        );
    }
}

#[test]
fn files_that_are_no_text() {
    let folder = Folder::new("quote-bytes");
    let wide = |mark: &[u8]| {
        let letters = SOUND.bytes().flat_map(|byte| [byte, 0]);
        [mark, &letters.collect::<Vec<u8>>()].concat()
    };
    for (settings, words) in [
        (wide(b"\xFF\xFE"), "(UTF-16): save it as plain text"),
        (wide(b""), "line 1, column 2: a zero byte"),
        (
            fs::read(sample("mosaic.czi")).unwrap(),
            "this is a CZI file, and --settings names a text file",
        ),
        (
            b"\xFF\xC3(\x1B[2J\n".to_vec(),
            "here has to stand edition=, not ",
        ),
        (vec![b'x'; 65_536], "here has to stand edition=, not \"xxx"),
    ] {
        let line = refused(&folder, settings);
        assert!(line.contains(words) && !line.contains('\x1B'), "{line}");
        assert!(line.len() < 250, "{line}");
    }
    // Longer than settings ever are: it is not read on.
    let (code, out, err) = quoted(&folder, vec![b'x'; 65_537], &[]);
    assert_eq!((code, out.as_str()), (1, ""));
    let words = "quote.txt: it is over 65536 bytes long, and settings are at most 56 bytes long\n";
    assert!(err.ends_with(words), "{err}");
    let line = "printf size | czi quote \"$1\" --settings -";
    is_failure(
        &shell(line, &[&sample("mosaic.czi")]),
        2,
        "(standard input, line 1, column 1: here has to stand edition=, not \"size\")",
    );
    // Nor is a pipe without an end.
    let line = "yes edition=1 | czi quote \"$1\" --settings -";
    is_failure(
        &shell(line, &[&sample("mosaic.czi")]),
        1,
        "standard input: it is over 65536 bytes long",
    );
}

#[test]
fn settings_that_are_missing_or_no_files() {
    let file = sample("mosaic.czi");
    let none = sample("no such file");
    fails(&["quote", &file], 1, "--settings is missing");
    fails(
        &["quote", &file, "--settings", &none],
        1,
        "no such file: No such file",
    );
    let folder = samples().display().to_string();
    fails(&["quote", &file, "--settings", &folder], 1, "irectory");
    fails(
        &["quote", &file, "--settings", ""],
        1,
        "--settings is empty: it names the file with edition=",
    );
    fails(
        &["quote", &none, "--settings", &sample("quote-1.txt")],
        1,
        "no such file: ",
    );
    fails(
        &["quote", "--settings", &sample("quote-1.txt")],
        1,
        "FILE is missing",
    );
}

#[test]
fn masks_are_none_of_its_options() {
    let asked = ["quote", &sample("mosaic.czi"), "--masks", "on"];
    fails(&asked, 1, "the settings say it, by their line masks=on");
    let settings = sample("quote-1.txt");
    let asked = [&asked[..3], &["off", "--settings", &settings]].concat();
    fails(&asked, 1, "(czi help quote says how it is called)");
    for option in ["--out", "--background", "--jobs", "--composer"] {
        let asked = ["quote", "a", option, "b"];
        fails(&asked, 1, &format!("there is no option {option} here"));
    }
    let asked = ["quote", "a", "--settings", "b", "--map", "-"];
    fails(&asked, 1, "the sheet goes to - unless --sheet names a file");
    let asked = ["quote", "-", "--settings", "-"];
    fails(&asked, 1, "FILE and --settings are both -");
}

#[test]
fn either_file_may_be_standard_input() {
    let (file, settings) = (sample("mosaic.czi"), sample("quote-2.txt"));
    for line in [
        "czi quote - --settings \"$2\" --scene any <\"$1\"",
        "cat \"$1\" | czi quote - --settings \"$2\" --scene any",
        "czi quote \"$1\" --settings - --scene any <\"$2\"",
        "cat \"$2\" | czi quote \"$1\" --settings - --scene any",
    ] {
        let (code, out, err) = said(&shell(line, &[&file, &settings]));
        assert_eq!((code, out.as_str()), (0, SHEET), "{line}: {err}");
        assert!(err.ends_with(CHOSEN), "{err}");
    }
}

/// The settings are an input too.
#[test]
fn what_is_read_is_never_replaced() {
    let folder = Folder::new("quote-input");
    let (file, settings) = (
        folder.mosaic("in.czi"),
        folder.write("in.txt", SOUND.as_bytes()),
    );
    symlink("in.txt", folder.path("link")).unwrap();
    fs::hard_link(&settings, folder.path("hard")).unwrap();
    let names = folder.names();
    let bytes = folder.read("in.czi");
    for name in ["in.txt", "./in.txt", "link", "hard", "in.czi"] {
        let (same, new) = (folder.path(name), folder.path("new"));
        for more in [&[][..], &["--force"]] {
            let words = "it is the file that is read";
            for (sheet, map) in [(&same, &new), (&new, &same)] {
                let fixed = ["quote", &file, "--settings", &settings];
                let outputs = ["--sheet", sheet, "--map", map];
                fails(&[&fixed[..], &outputs, more].concat(), 1, words);
            }
        }
        let line = "czi quote \"$1\" --settings \"$2\" >>\"$3\"";
        is_failure(
            &shell(line, &[&file, &settings, &same]),
            1,
            "standard output goes into a file that is read",
        );
        assert_eq!(folder.read("in.txt"), SOUND.as_bytes());
        assert_eq!(folder.read("in.czi"), bytes);
        assert_eq!(folder.names(), names);
    }
    let same = folder.path("new");
    let fixed = ["quote", &file, "--settings", &settings, "--sheet", &same];
    let words = "it is the same file as another output";
    fails(&[&fixed[..], &["--map", &same]].concat(), 1, words);
    // Where it is refused, or can't be written, nothing is left.
    let wrong = folder.write("wrong.txt", b"");
    let asked = ["quote", &file, "--settings", &wrong, "--sheet", &same];
    fails(&asked, 2, "refused 35 at 0: ");
    let nowhere = folder.path("none/map");
    let asked = [&fixed[..], &["--map", &nowhere]].concat();
    fails(&asked, 1, "none/map: ");
    let asked = [&fixed[..], &["--type=gray16"]].concat();
    fails(&asked, 2, "refused 23 at ");
    assert!(!folder.names().contains(&"new".to_string()));
    assert!(folder.names().iter().all(|name| !name.starts_with(".czi")));
}

/// The settings are refused before the file, and the file before what is asked.
#[test]
fn refusals_come_in_the_librarys_order() {
    let folder = Folder::new("quote-order");
    let sound = folder.write("sound.txt", SOUND.as_bytes());
    let wrong = folder.write("wrong.txt", b"edition=1");
    let (mosaic_, damaged) = (sample("mosaic.czi"), sample("refusal-13.czi"));
    let quote = |file: &str, settings: &str, more: &[&str]| {
        let fixed = ["quote", file, "--settings", settings];
        czi(&[&fixed[..], more].concat())
    };
    let wide = &["--window", "0,0,70000,1"][..];
    is_failure(&quote(&damaged, &wrong, wide), 2, "refused 35 at 0: ");
    is_failure(&quote(&damaged, &sound, wide), 2, "refused 13 at 4556: ");
    is_failure(&quote(&mosaic_, &wrong, wide), 2, "refused 35 at 0: ");
    is_failure(
        &quote(&mosaic_, &sound, wide),
        2,
        "(the width is 70000; quote parts with --window, and add their areas)",
    );
    is_failure(
        &quote(&mosaic_, &sound, &["--window", "0,0,0,70000"]),
        2,
        "1 to 65536, or right or bottom edge above 2147483647 (the width is 0)",
    );
    is_failure(
        &quote(&mosaic_, &sound, &["--type", "12"]),
        2,
        "refused 21 at 0: ",
    );
    is_failure(
        &quote(&mosaic_, &sound, &["--type", "gray16"]),
        2,
        "(tile 0 has gray8, asked for is gray16)",
    );
    is_failure(
        &quote(&sample("archive.czi"), &sound, &[]),
        2,
        "refused 17 at 945: ",
    );
    let older = quote(&sample("archive.czi"), &sound, &["--release=1.02"]);
    assert_eq!(said(&older).1, "covered=12\narea_nm2=1267500\n");
    let words =
        "no tile that counts (its 2 tiles are pyramid tiles), so it has no box: name a --window";
    is_failure(&quote(&sample("pyramids.czi"), &sound, &[]), 1, words);
    let words = "no tile that counts (it has no tiles), so it has no box: name a --window";
    is_failure(&quote(&sample("smallest.czi"), &sound, &[]), 1, words);
    let words = "the file has no tiles, so a --type must be given";
    let one = &["--window", "0,0,1,1"][..];
    is_failure(&quote(&sample("smallest.czi"), &sound, one), 1, words);
    let other = Tile {
        scene: 3,
        ..gray16(-50, -60, 10, 20)
    };
    let file = folder.write("a.czi", &mosaic(&[gray8(0, 0, 4, 5), other]));
    assert_eq!(
        said(&quote(&file, &sound, &["--scene=3"])).1,
        "covered=200\narea_nm2=21125000\n"
    );
    let words = "(tile 0 has gray8, tile 1 has gray16)";
    is_failure(&quote(&file, &sound, &["--scene=any"]), 2, words);
}

/// The areas of parts are the whole's, and memory that is not there is said.
#[test]
fn a_window_is_composed_whole() {
    let folder = Folder::new("quote-memory");
    let area = |window: &str| {
        let (_, out, err) = quoted(&folder, SOUND, &["--window", window]);
        let (_, area) = out.trim_end().split_once("area_nm2=").expect(&err);
        area.parse::<u64>().unwrap()
    };
    let parts = ["100,60,20,28", "120,60,23,9", "120,69,23,19"];
    assert_eq!(parts.map(area).iter().sum::<u64>(), 120_201_250);
    // 24 bytes a pixel: 96 GiB, or what a limit lets nobody have.
    let line = "ulimit -v 4000000; czi quote \"$1\" --settings \"$2\" --sheet \"$3\" --window \
                0,0,65536,65536 --type bgrcomplex --scene 7";
    let (settings, sheet) = (sample("quote-1.txt"), folder.path("sheet"));
    let output = shell(line, &[&sample("mosaic.czi"), &settings, &sheet]);
    let words = "there is no memory for 103079215104 bytes; a quote composes its window whole: \
                 quote parts of it with --window, and add their areas";
    is_failure(&output, 1, words);
    // Less than the machine has, and more than the limit lets this run have.
    let line = "ulimit -v 300000; czi quote \"$1\" --settings \"$2\" --sheet \"$3\" --window \
                0,0,20000,20000 --type gray8 --scene 7";
    let output = shell(line, &[&sample("mosaic.czi"), &settings, &sheet]);
    let words =
        "a quote composes its window whole: quote parts of it with --window, and add their \
                 areas";
    is_failure(&output, 1, words);
    assert_eq!(folder.names(), ["quote.txt"]);
}

/// Who writes all for any scene is told what to write.
#[test]
fn a_scene_is_any_or_a_number() {
    let (file, settings) = (sample("mosaic.czi"), sample("quote-1.txt"));
    for scene in ["all", "ANY", "", "1.0", "-"] {
        let words = format!("--scene is any (all scenes) or a number, not {scene:?}");
        let scene = format!("--scene={scene}");
        fails(
            &["quote", &file, "--settings", &settings, &scene],
            1,
            &words,
        );
        fails(&["count", &file, &scene], 1, &words);
        fails(&["compose", &file, &scene], 1, &words);
    }
    let words = "--scene: \"2147483648\" is no number that fits";
    fails(&["count", &file, "--scene=2147483648"], 1, words);
}

/// A sheet that can't be said, or whose lines can't, is not left in a file either.
#[test]
fn streams_that_take_nothing() {
    let folder = Folder::new("quote-streams");
    let settings = sample("quote-1.txt");
    let (file, sheet) = (sample("mosaic.czi"), folder.path("sheet"));
    for (line, words) in [
        (
            "czi quote \"$1\" --settings \"$2\" >/dev/full",
            "standard output: ",
        ),
        (
            "czi quote \"$1\" --settings \"$2\" --sheet \"$3\" >/dev/full",
            "standard output: ",
        ),
        (
            "czi quote \"$1\" --settings \"$2\" --sheet \"$3\" >&-",
            "standard output is closed",
        ),
        ("czi quote \"$1\" --settings \"$2\" 2>&-", ""),
    ] {
        let (code, out, err) = said(&shell(line, &[&file, &settings, &sheet]));
        assert_eq!((code, out.as_str()), (1, ""), "{line}");
        assert!(err.contains(words), "{line}: {err}");
        assert_eq!(folder.names(), [""; 0], "{line}");
    }
    // The sheet is out by then: the exit code alone says it.
    let line = "czi quote \"$1\" --settings \"$2\" 2>/dev/full";
    let (code, out, _) = said(&shell(line, &[&file, &settings]));
    assert_eq!(
        (code, out.as_str()),
        (1, "covered=1138\narea_nm2=1778125000\n")
    );
}
