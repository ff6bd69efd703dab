//! What a person wants to ask: tiles, figures, counts, parts; and what is chosen
//! where nothing is said.

mod support;

use std::fs;
use support::mosaic::{gray16, gray8, mosaic, Tile};
use support::{czi, fails, is_failure, prints, said, sample, shell, Folder};

#[test]
fn a_line_a_tile() {
    let file = sample("mosaic.czi");
    let wanted = "\
        tile=0 type=gray8 x=100 y=60 width=24 height=16 m=0 C=0 S=0 pyramid=no mask=none\n\
        tile=1 type=gray8 x=118 y=60 width=24 height=16 m=1 C=0 S=0 pyramid=no mask=24x16\n\
        tile=2 type=gray8 x=100 y=72 width=24 height=16 m=2 C=0 S=0 pyramid=no mask=none\n\
        tile=3 type=gray8 x=119 y=71 width=24 height=16 m=3 C=0 S=0 pyramid=no mask=none\n";
    assert_eq!(prints(&["tiles", &file]), wanted);
    let json = prints(&["tiles", "--json", &file]);
    let second =
        "{\"tile\":1,\"type\":\"gray8\",\"x\":118,\"y\":60,\"width\":24,\"height\":16,\"m\":1,\
        \"starts\":{\"C\":0,\"S\":0},\"layers\":null,\"pyramid\":false,\
        \"mask\":{\"width\":24,\"height\":16},\"release\":\"1.2\"}";
    assert_eq!(json.lines().nth(1), Some(&*format!("{second},")));
    let ending = "\"mask\":null,\"release\":\"1.2\"}]\n";
    assert!(json.starts_with("[{\"tile\":0,") && json.ends_with(ending));
    let pyramids = prints(&["tiles", &sample("pyramids.czi")]);
    assert_eq!(
        pyramids.matches(" m=none pyramid=yes mask=none\n").count(),
        2
    );
    assert_eq!(prints(&["tiles", &sample("smallest.czi")]), "");
    assert_eq!(
        prints(&["tiles", &sample("smallest.czi"), "--json"]),
        "[]\n"
    );
    fails(
        &["tiles", &sample("refusal-09.czi")],
        2,
        "refused 9 at 92: ",
    );
}

/// No file has more tiles, and each is there.
#[test]
fn every_tile_of_the_largest_file() {
    let folder = Folder::new("largest");
    let tiles: Vec<Tile> = (0..4097).map(|k| gray8(k, 0, 1, 1)).collect();
    let file = folder.write("largest.czi", &mosaic(&tiles[..4096]));
    let lines = prints(&["tiles", &file]);
    for (k, line) in lines.lines().enumerate() {
        assert!(line.starts_with(&format!("tile={k} type=gray8 x={k} y=0 ")));
    }
    assert_eq!(lines.matches(" S=0 pyramid=no mask=none\n").count(), 4096);
    let counted = prints(&["count", &file]);
    assert!(counted.starts_with("covered=4096\npixels=4096\n"));
    assert!(counted.contains("tiles=4096 selected=4096 meet=4096 "));
    assert!(prints(&["info", &file]).contains("letter=S tiles=4096 "));
    let more = folder.write("more.czi", &mosaic(&tiles));
    fails(&["tiles", &more], 2, "refused 10 at ");
}

#[test]
fn figures_that_explain_a_count() {
    let folder = Folder::new("info");
    let other = Tile {
        scene: 3,
        ..gray16(-50, -60, 10, 20)
    };
    let file = folder.write(
        "a.czi",
        &mosaic(&[gray8(0, 0, 4, 5), other, gray8(9, 1, 1, 1)]),
    );
    let lines = prints(&["info", &file]);
    let (_, more) = lines.split_once("box=-50,-60,10,5\n").expect(&lines);
    let wanted = "release=1.2\npyramid_tiles=0\nmasked_tiles=0\n\
                  type=gray8 tiles=2\ntype=gray16 tiles=1\n\
                  scene=0 tiles=2 pyramid_tiles=0 box=0,0,10,5\n\
                  scene=3 tiles=1 pyramid_tiles=0 box=-50,-60,-40,-40\n\
                  letter=S tiles=3 least=0 greatest=3 layered_tiles=0\n";
    assert_eq!(more, wanted);
    let json = prints(&["info", &file, "--json"]);
    for part in [
        "\"box\":{\"left\":-50,\"top\":-60,\"right\":10,\"bottom\":5}",
        "\"types\":[{\"type\":\"gray8\",\"tiles\":2},{\"type\":\"gray16\",\"tiles\":1}]",
        "{\"scene\":3,\"tiles\":1,\"pyramid_tiles\":0,\"box\":{\"left\":-50,\"top\":-60,\"right\":-40,\"bottom\":-40}}]",
        "\"letters\":[{\"letter\":\"S\",\"tiles\":3,\"least\":0,\"greatest\":3,\"layered_tiles\":0}]",
        "\"attachments\":[]}\n",
    ] {
        assert!(json.contains(part), "{part} in {json}");
    }
    let none = prints(&["info", &sample("pyramids.czi")]);
    let figures = "box=none\nrelease=1.2\npyramid_tiles=2\nmasked_tiles=0\ntype=gray8 tiles=2\n";
    assert!(none.contains(figures), "{none}");
    let json = prints(&["info", &sample("mosaic.czi"), "--json"]);
    let attachment = "{\"attachment\":0,\"bytes\":40,\"type\":\"CZTIMS\",\
                      \"guid\":\"{13121110-1514-1716-1819-1A1B1C1D1E1F}\",\"name\":\"TimeStamps\"}";
    let ending = format!("\"attachments\":[{attachment}]}}\n");
    assert!(json.ends_with(&ending), "{json}");
}

/// An attachment may be called anything: its name ends no line and no string.
#[test]
fn names_of_attachments_are_printed_on_their_line() {
    let folder = Folder::new("names");
    let mut bytes = fs::read(sample("mosaic.czi")).unwrap();
    let entry = bytes.windows(2).position(|two| two == b"A1").unwrap();
    let copy = entry
        + 1
        + bytes[entry + 1..]
            .windows(2)
            .position(|two| two == b"A1")
            .unwrap();
    for place in [entry, copy] {
        bytes[place + 40..place + 48].copy_from_slice(b"a\"b\\\nc\x7Fd");
        bytes[place + 48..place + 59].copy_from_slice(b"x\xFFy \xC3\xA9\xE2\x80\xAE\0z");
    }
    let file = folder.write("a.czi", &bytes);
    let guid = "{13121110-1514-1716-1819-1A1B1C1D1E1F}";
    // Quotes and backslashes are escaped, control characters and marks of direction.
    let (file_type, name) = (
        "\"a\\\"b\\\\\\u000ac\\u007fd\"",
        "\"x\u{FFFD}y \u{E9}\\u202e\"",
    );
    let line = format!("attachment=0 bytes=40 guid={guid} type={file_type} name={name}\n");
    let lines = prints(&["info", &file]);
    assert!(lines.ends_with(&line), "{lines}");
    let object = format!("\"type\":{file_type},\"guid\":\"{guid}\",\"name\":{name}}}]}}\n");
    let json = prints(&["info", &file, "--json"]);
    assert!(json.ends_with(&object), "{json}");
}

#[test]
fn only_a_mask_that_its_section_declares_hides_pixels() {
    let file = sample("marker_outside.czi");
    let tiles = prints(&["tiles", &file]);
    let masks: Vec<bool> = tiles.lines().map(|l| l.ends_with(" mask=4x1")).collect();
    assert_eq!(masks, [false, false, false, false, true], "{tiles}");
    assert!(prints(&["info", &file]).contains("masked_tiles=1\n"));
    assert!(prints(&["count", &file, "--masks=off"]).starts_with("covered=20\n"));
    assert!(prints(&["count", &file, "--masks=on"]).starts_with("covered=16\n"));
}

#[test]
fn a_count_is_that_of_the_composer() {
    let file = sample("mosaic.czi");
    let chosen = |masks: &str| {
        let found = "tiles=4 selected=4 meet=4 release=1.2";
        format!("{found} masks={masks} scene=0 type=gray8 window=100,60,43,28\n")
    };
    let counted = prints(&["count", &file]);
    let wanted = format!("covered=1174\npixels=1204\nwindows=1\n{}", chosen("off"));
    assert_eq!(counted, wanted);
    let counted = prints(&["count", &file, "--masks=on", "--jobs=1"]);
    assert!(counted.starts_with("covered=1138\n") && counted.ends_with(&chosen("on")));
    let composed = prints(&["compose", &file, "--masks", "on"]);
    let wanted = format!("pixels=1204\ncovered=1138\nstored=1138\n{}", chosen("on"));
    assert_eq!(composed, wanted);
    let counted = prints(&[
        "count",
        &file,
        "--scene=any",
        "--start=Z=-4",
        "--start",
        "C=0",
    ]);
    let chosen = "tiles=4 selected=0 meet=0 release=1.2 masks=off scene=any Z=-4 type=gray8 \
                  window=100,60,43,28\n";
    assert!(
        counted.starts_with("covered=0\n") && counted.ends_with(chosen),
        "{counted}"
    );
}

/// Cut lines go through the tiles, and the sum stays.
#[test]
fn counts_of_parts_add_up() {
    let file = sample("mosaic.czi");
    let windows = |window: &str, jobs: &str| {
        let lines = prints(&["count", &file, "--window", window, "--jobs", jobs]);
        let mut lines = lines.lines().map(str::to_string);
        (lines.next().unwrap(), lines.nth(1).unwrap())
    };
    // From 65,536 columns before column 120 on, twice as wide.
    let wide = "-65416,60,131072,28";
    let is = |covered: u32, parts: u32| (format!("covered={covered}"), format!("windows={parts}"));
    assert_eq!(windows(wide, "1"), is(1174, 2));
    assert_eq!(windows(wide, "2"), is(1174, 2));
    assert_eq!(windows(wide, "1024"), is(1174, 8));
    assert_eq!(windows("100,-65456,43,131072", "3"), is(1174, 2));
    assert_eq!(windows("100,60,43,28", "1024"), is(1174, 1));
    for jobs in ["0", "1025", "-1", "x", ""] {
        fails(&["count", &file, "--jobs", jobs], 1, "--jobs");
    }
}

/// What is selected and what meets the window is said, so that a forgotten scene is
/// seen.
#[test]
fn what_is_selected_and_what_meets_the_window() {
    let folder = Folder::new("selected");
    let scene = |scene| Tile {
        scene,
        ..gray8(100 * scene, 0, 10, 10)
    };
    let tiles = [scene(0), scene(1), gray8(30, 0, 5, 5), scene(1)];
    let file = folder.write("a.czi", &mosaic(&tiles));
    for (more, counts) in [
        (&[][..], "selected=2 meet=2"),
        (&["--scene", "1"], "selected=2 meet=2"),
        (&["--scene", "any"], "selected=4 meet=4"),
        (&["--scene", "2"], "selected=0 meet=0"),
        (&["--window", "9,9,1,1"], "selected=2 meet=1"),
        (&["--window", "10,0,20,9"], "selected=2 meet=0"),
        (
            &["--window", "29,4,2,1", "--scene=any"],
            "selected=4 meet=1",
        ),
    ] {
        for command in ["count", "compose"] {
            let lines = prints(&[&[command, &file], more].concat());
            let last = lines.lines().last().unwrap();
            let wanted = format!("tiles=4 {counts} release=1.2 masks=off scene=");
            assert!(last.starts_with(&wanted), "{more:?}: {last}");
        }
    }
}

/// Two tiles in the corners of the plane: the rest of it, some 2^64 pixels, is
/// passed over.
#[test]
fn parts_that_no_tile_meets_are_passed_over() {
    let folder = Folder::new("corners");
    let far = i32::MAX - 10;
    let tiles = [gray8(i32::MIN, i32::MIN, 5, 5), gray8(far, far, 10, 10)];
    let file = folder.write("a.czi", &mosaic(&tiles));
    let lines = prints(&["count", &file, "--jobs", "1024"]);
    let (counts, chosen) = lines.split_once("windows=").unwrap();
    assert_eq!(counts, "covered=125\npixels=18446744065119617025\n");
    let (windows, chosen) = chosen.split_once('\n').unwrap();
    assert!(windows.parse::<u64>().unwrap() > 1 << 32, "{windows}");
    let window = "window=-2147483648,-2147483648,4294967295,4294967295\n";
    assert!(chosen.starts_with("tiles=2 selected=2 meet=2 ") && chosen.ends_with(window));
}

#[test]
fn windows_that_are_refused_are_refused_by_the_library() {
    let file = sample("mosaic.czi");
    for (window, half) in [
        ("0,0,0,70000", "(the width is 0)"),
        ("0,0,70000,0", "(the height is 0)"),
        ("2147400000,0,83648,1", "(the right edge is 2147483648)"),
        (
            "0,2147483647,1,4294967295",
            "(the bottom edge is 6442450942)",
        ),
        (
            "2147483647,0,4294967295,1",
            "(the right edge is 6442450942)",
        ),
    ] {
        let count = ["count", &file, "--window", window];
        fails(
            &count,
            2,
            "refused 20 at 0: a side of the window is 0, or an edge is past",
        );
        fails(&count, 2, half);
    }
    let last = ["count", &file, "--window", "2147400000,0,83647,1"];
    assert!(prints(&last).starts_with("covered=0\npixels=83647\nwindows=2\n"));
    fails(&["count", &file, "--type", "12"], 2, "refused 21 at 0: ");
}

#[test]
fn a_file_without_a_box_covers_nothing() {
    let types = [("smallest.czi", 0, "none"), ("pyramids.czi", 2, "gray8")];
    for (name, tiles, found) in types {
        let file = sample(name);
        let wanted = |named: &str| {
            let chosen = "selected=0 meet=0 release=1.2 masks=off scene=0";
            let counts = "covered=0\npixels=0\nwindows=0";
            format!("{counts}\ntiles={tiles} {chosen} type={named} window=none\n")
        };
        assert_eq!(prints(&["count", &file]), wanted(found));
        let typed = ["count", &file, "--type", "Bgr48"];
        assert_eq!(prints(&typed), wanted("bgr48"));
        fails(&["compose", &file], 1, "so it has no box: name a --window");
        for command in ["count", "compose"] {
            for window in [&[][..], &["--window", "0,0,3,3"]] {
                let typed = [&[command, &file, "--type", "12"], window].concat();
                fails(&typed, 2, "refused 21 at 0: ");
                fails(&typed, 2, "(there is no type 12)");
            }
        }
    }
    let empty = sample("smallest.czi");
    let counted = prints(&["count", &empty, "--window", "0,0,3,3"]);
    assert!(counted.starts_with("covered=0\npixels=9\nwindows=1\n"));
    assert!(counted.ends_with("type=none window=0,0,3,3\n"));
    let typed = ["count", &empty, "--window=0,0,3,3", "--type=1"];
    assert!(prints(&typed).ends_with("type=gray16 window=0,0,3,3\n"));
    fails(&["count", &empty, "--window=0,0,0,3"], 2, "refused 20 ");
    let window = ["compose", &empty, "--window", "0,0,3,3"];
    fails(&window, 1, "no tiles, so a --type");
    let pixel = [&window[..], &["--background", "0102"]].concat();
    fails(&pixel, 1, "no tiles, so a --type");
}

/// One type among the tiles that count, whatever others the file has.
#[test]
fn the_type_is_that_of_the_tiles_in_the_window() {
    let folder = Folder::new("types");
    let elsewhere = Tile {
        scene: 1,
        ..gray8(0, 0, 5, 5)
    };
    let far = gray16(0, 70_000, 6, 7);
    let file = folder.write("one.czi", &mosaic(&[elsewhere, far]));
    for command in ["count", "compose"] {
        let one = prints(&[command, &file, "--window", "0,0,6,65536"]);
        assert!(one.contains(" type=gray8 "), "nothing is selected: {one}");
    }
    // The first window has no tile, the second has one of another type than tile 0.
    let lines = prints(&["count", &file]);
    let chosen = "tiles=2 selected=1 meet=1 release=1.2 masks=off scene=0 type=gray16 \
                  window=0,0,6,70007\n";
    assert_eq!(
        lines,
        format!("covered=42\npixels=420042\nwindows=2\n{chosen}")
    );
    let out = folder.path("out");
    let here = ["compose", &file, "--window", "0,70000,6,7", "--out", &out];
    assert!(prints(&here).contains(" type=gray16 "));
    assert_eq!(fs::read(&out).unwrap(), [1; 84]);
    // A background that does not fit is 21 for the type that is found.
    let more = |hex| [&here[..4], &["--background", hex]].concat();
    assert!(prints(&more("0102")).contains(" type=gray16 "));
    fails(
        &more("01"),
        2,
        "(the background has 1 bytes, a pixel of gray16 has 2)",
    );
}

#[test]
fn two_types_are_refused_and_named() {
    let folder = Folder::new("two-types");
    let far = gray16(0, 70_000, 6, 7);
    let file = folder.write("two.czi", &mosaic(&[gray8(0, 0, 5, 5), far]));
    let words = "refused 23 at ";
    let named = "(tile 0 has gray8, tile 1 has gray16)";
    for jobs in ["1", "2", "7"] {
        fails(&["count", &file, "--jobs", jobs], 2, words);
        fails(&["count", &file, "--jobs", jobs], 2, named);
    }
    // Two parts are refused: the first in the directory is said, though it lies in
    // the last part, and however the jobs run.
    let farther = gray16(0, 140_000, 6, 7);
    let tiles = [gray8(0, 0, 5, 5), farther, far];
    let three = folder.write("three.czi", &mosaic(&tiles));
    fails(&["count", &three], 2, named);
    let typed = ["count", &three, "--jobs", "3", "--type", "gray8"];
    for _ in 0..20 {
        fails(&typed, 2, "(tile 1 has gray16, asked for is gray8)");
    }
    let typed = ["count", &sample("free.czi"), "--type", "gray8"];
    fails(&typed, 2, "refused 23 at 5384: ");
    fails(&typed, 2, "(tile 1 has gray16, asked for is gray8)");
    // 20 and 21 go before 23.
    fails(&["count", &three, "--window", "0,0,0,1"], 2, "refused 20 ");
    fails(&["compose", &three], 2, "(the height is 140007)");
    let near = folder.write(
        "near.czi",
        &mosaic(&[gray8(0, 0, 5, 5), gray16(2, 2, 6, 7)]),
    );
    let out = folder.path("out");
    for words in [words, named] {
        fails(&["compose", &near, "--out", &out], 2, words);
    }
    let asked = "(tile 0 has gray8, asked for is gray16)";
    fails(&["count", &near, "--type", "Gray16"], 2, asked);
    assert_eq!(folder.names(), ["near.czi", "three.czi", "two.czi"]);
}

#[test]
fn a_plane_of_many_rows_is_composed_in_parts() {
    let folder = Folder::new("parts");
    // Of 24 bytes a pixel and 65,536 columns, 512 MiB are 339 rows.
    let tile = Tile {
        pixel_type: 11,
        bytes: 24,
        ..gray8(0, 330, 9, 20)
    };
    let file = folder.write("a.czi", &mosaic(&[tile]));
    let map = folder.path("map");
    // 600,000 KiB of addresses hold 512 MiB, and not the plane.
    let words = "ulimit -v 600000; czi compose \"$1\" --map \"$2\" --window 0,0,65536,400";
    let (code, lines, err) = said(&shell(words, &[&file, &map]));
    assert_eq!(code, 0, "{err}");
    assert!(lines.starts_with("pixels=26214400\ncovered=180\nstored=180\n"));
    let words = "ulimit -v 600000; czi count \"$1\" --window 0,0,65536,400 --jobs 1";
    let (code, lines, err) = said(&shell(words, &[&file]));
    assert_eq!(code, 0, "{err}");
    assert!(
        lines.starts_with("covered=180\npixels=26214400\nwindows=2\n"),
        "{lines}"
    );
    let map = fs::read(map).unwrap();
    let (head, rows) = map.split_at(b"P4\n65536 400\n".len());
    assert_eq!(head, b"P4\n65536 400\n");
    for (y, row) in rows.chunks(8192).enumerate() {
        let wanted: &[u8] = if (330..350).contains(&y) {
            &[0xFF, 0x80]
        } else {
            &[0, 0]
        };
        assert_eq!(&row[..2], wanted, "row {y}");
        assert!(row[2..].iter().all(|byte| *byte == 0), "row {y}");
    }
}

#[test]
fn standard_output_is_an_output() {
    let folder = Folder::new("standard");
    let (file, out, map) = (sample("mosaic.czi"), folder.path("out"), folder.path("map"));
    prints(&["compose", &file, "--out", &out, "--map", &map]);
    let lines = "pixels=1204\ncovered=1174\nstored=1174\n";
    for (option, path) in [("--out", &out), ("--map", &map)] {
        let output = czi(&["compose", &file, option, "-"]);
        assert_eq!(output.status.code(), Some(0));
        assert_eq!(output.stdout, fs::read(path).unwrap());
        let err = String::from_utf8(output.stderr).unwrap();
        assert!(err.starts_with(lines), "{err}");
    }
    let output = czi(&["sample", "-"]);
    assert_eq!(output.stdout, fs::read(&file).unwrap());
    assert_eq!(output.stderr, b"6144 bytes written\n");
    let line = "czi sample - 2>\"$2\" | czi compose - --out - 2>\"$2\" | cmp - \"$1\"";
    let output = shell(line, &[&out, &folder.path("log")]);
    assert_eq!(said(&output), (0, String::new(), String::new()));
}

#[test]
fn parts_are_the_very_bytes() {
    let folder = Folder::new("extract");
    let file = sample("mosaic.czi");
    let bytes = fs::read(&file).unwrap();
    let extract = |part: &[&str]| {
        let output = czi(&[&["extract", &file, "--out", "-"], part].concat());
        assert_eq!(output.status.code(), Some(0), "{part:?}");
        let told = format!("bytes={}\n", output.stdout.len());
        assert_eq!(String::from_utf8(output.stderr).unwrap(), told);
        output.stdout
    };
    let pixels = extract(&["--tile", "1", "--pixels"]);
    assert_eq!(pixels, ::czi::tile_pixels(&bytes, 1).unwrap());
    assert_eq!(pixels.len(), 24 * 16);
    let metadata = extract(&["--tile=1", "--metadata"]);
    assert_eq!(metadata, ::czi::tile_metadata(&bytes, 1).unwrap());
    assert!(metadata.starts_with(b"<"));
    let attachment = extract(&["--tile=1", "--tile-attachment"]);
    assert_eq!(attachment, ::czi::tile_attachment(&bytes, 1).unwrap());
    assert_eq!(attachment.len(), 115);
    assert!(extract(&["--tile=0", "--tile-attachment"]).is_empty());
    assert!(extract(&["--xml"]).starts_with(b"<ImageDocument>"));
    assert!(extract(&["--xml-attachment"]).is_empty());
    let attachment = extract(&["--attachment", "0"]);
    assert_eq!(attachment, ::czi::attachment_data(&bytes, 0).unwrap());
    let out = folder.path("out");
    let to_file = ["extract", &file, "--attachment=0", "--out", &out];
    assert_eq!(prints(&to_file), "bytes=40\n");
    assert_eq!(fs::read(&out).unwrap(), attachment);
    let new = folder.path("new");
    for (part, code, words) in [
        (&["--tile", "4", "--pixels"][..], 2, "refused 24 at 0: "),
        (&["--attachment", "1"], 2, "refused 24 at 0: "),
        (&["--tile", "-1", "--pixels"], 1, "\"-1\""),
        (&["--tile", "1"], 1, "one part is wanted"),
        (&["--pixels"], 1, "one part is wanted"),
        (&["--xml", "--pixels"], 1, "one part is wanted"),
        (
            &["--tile", "1", "--attachment", "1"],
            1,
            "one part is wanted",
        ),
        (&[], 1, "one part is wanted"),
    ] {
        fails(
            &[&["extract", &file, "--out", &new], part].concat(),
            code,
            words,
        );
    }
    fails(&["extract", &file, "--xml"], 1, "--out is missing");
    assert_eq!(folder.names(), ["out"]);
}

#[test]
fn words_behind_two_dashes_are_paths() {
    let folder = Folder::new("dashes");
    folder.mosaic("--json");
    let line = "cd \"$1\" && czi judge -- --json";
    let output = shell(line, &[&folder.path("")]);
    assert_eq!(said(&output), (0, "accepted\n".to_string(), String::new()));
    let output = shell("cd \"$1\" && czi judge --json", &[&folder.path("")]);
    is_failure(&output, 1, "there is no option --json here");
}

/// Progress is for a terminal alone.
#[test]
fn nothing_but_the_answer_is_said() {
    let file = sample("mosaic.czi");
    prints(&["count", &file, "--window", "0,0,60000,60000"]);
}
