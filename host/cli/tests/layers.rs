//! Tiles with layers, several planes in one sub-block, of which `--start` takes one.

mod support;

use std::fs;
use support::{czi, fails, prints, said, sample, Folder};

/// The starts along Z, and what is selected and covered there with masks off and on.
const BY_START: [(&str, u32, [u32; 2]); 7] = [
    ("0", 0, [0, 0]),
    ("4", 0, [0, 0]),
    ("5", 1, [96, 96]),
    ("6", 3, [204, 188]),
    ("7", 2, [180, 164]),
    ("8", 1, [96, 80]),
    ("9", 0, [0, 0]),
];

/// The line that says what was chosen.
fn chosen(start: &str, selected: u32, masks: &str) -> String {
    format!(
        "tiles=4 selected={selected} meet={selected} release=1.2 masks={masks} scene=0 \
         Z={start} layers=Z:5..8 type=gray8 window=0,0,22,12\n"
    )
}

#[test]
fn tiles_and_info_show_layers() {
    let file = sample("stack.czi");
    let wanted = "\
        tile=0 type=gray8 x=0 y=0 width=12 height=8 m=0 C=0 Z=5..7 pyramid=no mask=none\n\
        tile=1 type=gray8 x=10 y=2 width=12 height=8 m=1 Z=6..8 pyramid=no mask=12x8\n\
        tile=2 type=gray8 x=0 y=8 width=6 height=4 m=none Z=6 pyramid=no mask=none\n\
        tile=3 type=gray8 x=0 y=0 width=24 height=12 m=none Z=5..7 pyramid=yes mask=none\n";
    assert_eq!(prints(&["tiles", &file]), wanted);
    let json = prints(&["tiles", &file, "--json"]);
    let layers = |line: usize| {
        let line = json.lines().nth(line).unwrap();
        let (_, behind) = line.split_once("\"starts\":").unwrap();
        behind.split_once(",\"pyramid\"").unwrap().0.to_string()
    };
    let of = |start| format!("\"layers\":{{\"letter\":\"Z\",\"start\":{start},\"size\":3}}");
    assert_eq!(layers(0), format!("{{\"C\":0,\"Z\":5}},{}", of(5)));
    assert_eq!(layers(1), format!("{{\"Z\":6}},{}", of(6)));
    assert_eq!(layers(2), "{\"Z\":6},\"layers\":null");
    assert_eq!(layers(3), format!("{{\"Z\":5}},{}", of(5)));
    let info = prints(&["info", &file]);
    let letters = "letter=C tiles=1 least=0 greatest=0 layered_tiles=0\n\
                   letter=M tiles=2 least=0 greatest=1 layered_tiles=0\n\
                   letter=Z tiles=4 least=5 greatest=8 layered_tiles=3\n";
    assert!(info.ends_with(letters), "{info}");
    let json = prints(&["info", &file, "--json"]);
    let letter = "{\"letter\":\"Z\",\"tiles\":4,\"least\":5,\"greatest\":8,\"layered_tiles\":3}]";
    assert!(json.contains(letter), "{json}");
}

#[test]
fn a_start_takes_the_layer_that_starts_there() {
    let (folder, file) = (Folder::new("layers"), sample("stack.czi"));
    let bytes = fs::read(&file).unwrap();
    let first = ::czi::tile(&bytes, 0).unwrap();
    for (start, selected, covered) in BY_START {
        for (masks, covered) in ["off", "on"].into_iter().zip(covered) {
            let (z, out) = (format!("Z={start}"), folder.path("plane"));
            let asked = [&file, "--start", &z, "--masks", masks];
            let counted = prints(&[&["count"], &asked[..]].concat());
            let last = chosen(start, selected, masks);
            let figures = format!("covered={covered}\npixels=264\nwindows=1\n");
            assert_eq!(counted, figures + &last);
            let more = ["--composer=both", "--force", "--out", &out];
            let composed = prints(&[&["compose"], &asked[..], &more].concat());
            let figures = format!("pixels=264\ncovered={covered}\nstored=");
            assert!(composed.starts_with(&figures), "{composed}");
            assert!(composed.ends_with(&format!("both composers agree\n{last}")));
            // The first row is tile 0's, but for what no tile gives.
            let wanted = match first.layer_pixels(start.parse().unwrap()) {
                Some(layer) => &bytes[layer][..12],
                None => &[0; 12],
            };
            assert_eq!(&folder.read("plane")[..12], wanted, "{start}");
        }
    }
}

/// Who forgets the start sees that there are layers, and which.
#[test]
fn a_forgotten_start_is_seen() {
    let file = sample("stack.czi");
    let forgotten = chosen("0", 0, "off");
    for command in ["count", "compose"] {
        let lines = prints(&[command, &file]);
        assert!(lines.ends_with(&forgotten), "{lines}");
    }
    let quote = ["quote", &file, "--settings", &sample("quote-1.txt")];
    let (code, sheet, lines) = said(&czi(&quote));
    assert_eq!((code, sheet.as_str()), (0, "covered=0\narea_nm2=0\n"));
    let note = "note: 3 of 3 tiles are left out (scene, channel, layer or another start)\n";
    assert!(lines.contains(note), "{lines}");
    assert!(lines.ends_with(&chosen("0", 0, "on")), "{lines}");
    // A file without layers says nothing of them.
    assert!(!prints(&["count", &sample("mosaic.czi")]).contains("layers"));
}

#[test]
fn a_layer_is_quoted() {
    let (file, settings) = (sample("stack.czi"), sample("quote-1.txt"));
    for (start, selected, [_, covered]) in BY_START {
        let z = format!("--start=Z={start}");
        let quote = ["quote", &file, "--settings", &settings, &z];
        let (code, sheet, lines) = said(&czi(&quote));
        let area = u64::from(covered) * 1250 * 1250;
        let wanted = format!("covered={covered}\narea_nm2={area}\n");
        assert_eq!((code, sheet), (0, wanted));
        assert!(lines.ends_with(&chosen(start, selected, "on")), "{lines}");
    }
}

/// The pixels of a tile are those of all of its layers.
#[test]
fn all_layers_are_extracted() {
    let (folder, file) = (Folder::new("extracted"), sample("stack.czi"));
    let bytes = fs::read(&file).unwrap();
    for (tile, length) in [("0", 288), ("1", 288), ("2", 24), ("3", 216)] {
        let out = folder.path(tile);
        let extract = ["extract", &file, "--tile", tile, "--pixels", "--out", &out];
        assert_eq!(prints(&extract), format!("bytes={length}\n"));
        let pixels = ::czi::tile_pixels(&bytes, tile.parse().unwrap()).unwrap();
        assert_eq!(folder.read(tile), pixels);
    }
}

#[test]
fn a_start_is_that_of_one_layer() {
    let file = sample("stack.czi");
    for (word, said) in [
        ("Z=5..7", "--start takes one layer, as Z=5, not \"Z=5..7\""),
        ("Z=-5..7", "as Z=-5, not"),
        ("C=1..", "as C=1, not"),
        (
            "Z=..7",
            "--start takes one layer, by its number, not \"Z=..7\"",
        ),
        ("Z=5,6..7", "by its number, not"),
        ("Z=2147483648..7", "by its number, not"),
        (
            "S=1..2",
            "--start S takes one scene, as S=1, not \"S=1..2\"; --scene any takes all",
        ),
        ("S=..2", "--start S takes one scene, by its number, not"),
        ("X=5..7", "--start: X has no start to ask for"),
        ("Y=..7", "--start: Y has no start to ask for"),
        ("M=0..7", "--start: M has no start to ask for"),
        ("Z=", "--start: \"\" is no number that fits"),
        ("Z=2147483648", "--start: \"2147483648\" is no number"),
        ("z=5", "--start wants a letter and a number as C=1"),
    ] {
        fails(&["count", &file, "--start", word], 1, said);
    }
    // What is offered is taken.
    for word in ["Z=5", "Z=-5", "C=1", "S=1"] {
        prints(&["count", &file, "--start", word]);
    }
    let twice = ["count", &file, "--start=Z=5", "--start=Z=6"];
    fails(&twice, 1, "--start of a letter is given twice");
}

#[test]
fn stacks_that_are_refused() {
    for (name, place) in [("stack_of_two.czi", 2848), ("stack_before_y.czi", 2980)] {
        let words = format!("refused 11 at {place}: entry not well formed");
        fails(&["judge", &sample(name)], 2, &words);
    }
}
