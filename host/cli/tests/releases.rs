//! Files judged by release 1.2, or by 1.02 with `--release`.

mod support;

use std::fs;
use support::{fails, prints, sample, samples, Folder};

#[test]
fn every_sample_is_listed_as_stored_under_each_release() {
    let mut others = 0;
    for entry in fs::read_dir(samples()).unwrap() {
        let path = entry.unwrap().path();
        if path.extension().is_some_and(|e| e == "czi") {
            let file = path.display().to_string();
            let newer = fs::read_to_string(path.with_extension("txt")).unwrap();
            assert_eq!(prints(&["list", &file, "--release", "1.2"]), newer);
            let other = fs::read_to_string(path.with_extension("1.02.txt"));
            others += usize::from(other.is_ok());
            let wanted = other.unwrap_or(newer);
            assert_eq!(prints(&["list", "--release=1.02", &file]), wanted, "{file}");
        }
    }
    assert!(others >= 5, "{others}");
}

#[test]
fn a_broken_container_is_judged_by_1_2_alone() {
    let (archive, behind) = (sample("archive.czi"), sample("archive_behind.czi"));
    for more in [&[][..], &["--release", "1.2"], &["--release=1.2"]] {
        for file in [&archive, &behind] {
            fails(
                &[&["judge", file][..], more].concat(),
                2,
                "refused 17 at 945: ",
            );
        }
    }
    fn judged(file: &str) -> [&str; 4] {
        ["judge", file, "--release", "1.02"]
    }
    assert_eq!(prints(&judged(&archive)), "accepted\n");
    fails(&judged(&behind), 2, "refused 13 at 2192: compression not 0");
    for name in ["refusal-17.czi", "refusal-18.czi", "container19.czi"] {
        assert_eq!(prints(&judged(&sample(name))), "accepted\n");
    }
    fails(&judged(&sample("refusal-16.czi")), 2, "refused 16 at ");
}

#[test]
fn no_tile_has_a_mask_under_1_02() {
    let file = sample("mosaic.czi");
    let older = ["--release", "1.02"];
    let tiles = prints(&[&["tiles", &file][..], &older].concat());
    assert_eq!(tiles.matches(" mask=none\n").count(), 4, "{tiles}");
    let json = prints(&[&["tiles", &file, "--json"][..], &older].concat());
    let ended = "\"mask\":null,\"release\":\"1.02\"}";
    assert_eq!(json.matches(ended).count(), 4, "{json}");
    let json = prints(&["tiles", &file, "--json"]);
    assert_eq!(json.matches(",\"release\":\"1.2\"}").count(), 4, "{json}");
    let info = prints(&[&["info", &file][..], &older].concat());
    let newer = prints(&["info", &file]);
    let both = "\nrelease=1.2\npyramid_tiles=0\nmasked_tiles=1\n";
    let older_both = "\nrelease=1.02\npyramid_tiles=0\nmasked_tiles=0\n";
    assert_eq!(info, newer.replace(both, older_both));
    assert_ne!(info, newer);
    for release in ["1.02", "1.2"] {
        let json = prints(&["info", &file, "--json", "--release", release]);
        let field = format!(",\n\"release\":\"{release}\",\n");
        assert!(json.contains(&field), "{json}");
    }
}

#[test]
fn masks_on_is_the_same_as_masks_off_under_1_02() {
    let folder = Folder::new("releases");
    let file = sample("mosaic.czi");
    let run = |name: &str, more: &[&str]| {
        let counted = prints(&[&["count", &file][..], more].concat());
        let (plane, map) = (folder.path(name), folder.path(&format!("{name}.pbm")));
        let fixed = [
            "compose",
            &file,
            "--composer=both",
            "--out",
            &plane,
            "--map",
            &map,
        ];
        let composed = prints(&[&fixed[..], more].concat());
        let covered = counted.lines().next().unwrap().to_string();
        assert_eq!(composed.lines().nth(1), Some(&*covered), "{composed}");
        let last = composed.lines().last().unwrap().to_string();
        assert!(counted.ends_with(&format!("{last}\n")));
        let files = [folder.read(name), folder.read(&format!("{name}.pbm"))];
        (covered, last, files)
    };
    let chosen = |said: &str| {
        format!("tiles=4 selected=4 meet=4 {said} scene=0 type=gray8 window=100,60,43,28")
    };
    let (covered, last, off) = run("off", &["--masks", "off"]);
    assert_eq!(
        (covered.as_str(), last),
        ("covered=1174", chosen("release=1.2 masks=off"))
    );
    let (covered, last, on) = run("on", &["--masks", "on", "--release", "1.2"]);
    assert_eq!(
        (covered.as_str(), last),
        ("covered=1138", chosen("release=1.2 masks=on"))
    );
    assert_ne!(on, off);
    for (name, masks) in [("older-on", "on"), ("older-off", "off")] {
        let (covered, last, files) = run(name, &["--masks", masks, "--release", "1.02"]);
        let said = format!("release=1.02 masks={masks}");
        assert_eq!((covered.as_str(), last), ("covered=1174", chosen(&said)));
        assert_eq!(files, off);
    }
}

#[test]
fn questions_and_parts_of_an_archive() {
    let folder = Folder::new("archive");
    let (file, note) = (sample("archive.czi"), folder.path("note"));
    let part = ["--tile", "0", "--tile-attachment", "--out", &note];
    let extract = [&["extract", &file][..], &part].concat();
    fails(&extract, 2, "refused 17 at 945: ");
    assert!(folder.names().is_empty());
    let older = ["--release", "1.02"];
    assert_eq!(prints(&[&extract[..], &older].concat()), "bytes=28\n");
    assert_eq!(folder.read("note"), b"scanned 2011-05-04, slide 17");
    for command in ["info", "tiles", "count", "compose"] {
        fails(&[command, &file], 2, "refused 17 at 945: ");
        prints(&[&[command, &file][..], &older].concat());
    }
    let counted = prints(&[&["count", &file, "--masks=on"][..], &older].concat());
    let chosen =
        "tiles=3 selected=3 meet=3 release=1.02 masks=on scene=0 type=gray8 window=0,0,12,1";
    assert_eq!(
        counted,
        format!("covered=12\npixels=12\nwindows=1\n{chosen}\n")
    );
    // Another type is explained of the file as it is judged.
    let typed = [&["count", &file, "--type=gray16"][..], &older].concat();
    fails(&typed, 2, "(tile 0 has gray8, asked for is gray16)");
}

/// The older release is no way round a refusal, and the help says so.
#[test]
fn help_says_when_1_02_is_to_be_chosen() {
    let help = |about: &str| {
        let text = prints(&["help", about]);
        text.split_whitespace().collect::<Vec<_>>().join(" ")
    };
    let refusals = help("refusals");
    let words = "only a file that was archived under release 1.02 is judged by it, and the \
                 masks of any other would be forgotten";
    assert_eq!(refusals.matches(words).count(), 2, "{refusals}");
    for command in [
        "judge", "list", "info", "tiles", "count", "compose", "repack", "extract",
    ] {
        let text = help(command);
        let words = "Choose it for a file that was archived under 1.02 and for no other";
        assert!(text.contains(words), "{text}");
    }
}

#[test]
fn another_release_is_not_taken() {
    let (folder, file) = (Folder::new("another-release"), sample("mosaic.czi"));
    let out = folder.path("out");
    let extract = ["extract", &file, "--xml", "--out", &out];
    let commands = ["judge", "list", "info", "tiles", "count", "compose"];
    let commands = commands.map(|command| vec![command, &file]);
    let repack = ["repack", &file, "--out", &out];
    let others = [&extract[..], &repack];
    for command in commands.iter().map(Vec::as_slice).chain(others) {
        let with = |more: &[&'static str]| [command, more].concat();
        for word in [
            "", "1.20", "1,02", "1,2", "1.02 ", " 1.2", "1.0", "1", "2", "01.2", "1.2.0", "v1.2",
            "1.O2", "١.٢", "1.2\n",
        ] {
            let words = format!("--release is 1.02 or 1.2, not {word:?}");
            fails(&with(&["--release", word]), 1, &words);
        }
        fails(&with(&["--release"]), 1, "--release wants a value");
        let twice = ["--release", "1.2", "--release=1.2"];
        fails(&with(&twice), 1, "--release is given twice");
        let named = format!("(czi help {} says how it is called)", command[0]);
        fails(&with(&["--release=1.3"]), 1, &named);
    }
    assert!(folder.names().is_empty());
    fails(
        &["sample", &out, "--release", "1.2"],
        1,
        "no option --release here",
    );
}
