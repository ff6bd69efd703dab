//! Paper 02, Req 01: where the section of a chunk container stands, what is in it,
//! and how deep and long metadata may be. Every reading from both sides.

mod build;

use build::{file, mask_chunk, Tile, SECTION};
use reference::{declares_container, judge, Release};

/// The section of the mask page, source document 002.
const PAGE: &str = "\
<METADATA>
  <AttachmentSchema>
    <DataFormat>CHUNKCONTAINER</DataFormat>
  </AttachmentSchema>
</METADATA>";

#[track_caller]
fn declare(all: &[&str]) {
    for metadata in all {
        assert!(declares_container(metadata.as_bytes()), "{metadata}");
    }
}

#[track_caller]
fn declare_nothing(all: &[&str]) {
    for metadata in all {
        assert!(!declares_container(metadata.as_bytes()), "{metadata}");
    }
}

/// The section with another start tag, value and end tag of its DataFormat.
fn data_format(start: &str, value: &str, end: &str) -> String {
    format!("<METADATA><AttachmentSchema>{start}{value}{end}</AttachmentSchema></METADATA>")
}

/// The section with that between its last tags.
fn value(value: &str) -> String {
    data_format("<DataFormat>", value, "</DataFormat>")
}

#[test]
fn the_section_of_the_page() {
    declare(&[PAGE, &format!("{PAGE}\n"), &format!("\u{FEFF}{PAGE}")]);
    assert!(declares_container(SECTION));
    declare_nothing(&[
        "",
        " ",
        "CHUNKCONTAINER",
        &PAGE[1..],
        &PAGE[..PAGE.len() - 1],
    ]);
}

#[test]
fn every_end_before_the_last_byte_declares_nothing() {
    for end in 0..SECTION.len() {
        assert!(!declares_container(&SECTION[..end]), "{end}");
        assert!(!declares_container(&SECTION[end + 1..]), "{end}");
    }
}

#[test]
fn the_marker_elsewhere_declares_nothing() {
    let marker = "<DataFormat>CHUNKCONTAINER</DataFormat>";
    declare_nothing(&[
        marker,
        &format!("<METADATA>{marker}</METADATA>"),
        &format!("<AttachmentSchema>{marker}</AttachmentSchema>"),
        &format!("<AttachmentSchema><METADATA>{marker}</METADATA></AttachmentSchema>"),
        &format!("<METADATA></METADATA><AttachmentSchema>{marker}</AttachmentSchema>"),
        &format!("<METADATA/><AttachmentSchema>{marker}</AttachmentSchema>"),
        &format!("<METADATA><AttachmentSchema/>{marker}</METADATA>"),
        &format!("<METADATA><AttachmentSchema></AttachmentSchema>{marker}</METADATA>"),
        &format!("<a>{PAGE}</a>"),
        &format!("<METADATA>{PAGE}</METADATA>"),
        &format!("<METADATA><a><AttachmentSchema>{marker}</AttachmentSchema></a></METADATA>"),
        &format!("<METADATA><AttachmentSchema><a>{marker}</a></AttachmentSchema></METADATA>"),
        &format!("<METADATA><AttachmentSchema><AttachmentSchema>{marker}</AttachmentSchema></AttachmentSchema></METADATA>"),
        &value(marker),
        &format!("<!--{PAGE}-->"),
        &format!("<![CDATA[{PAGE}]]>"),
        &format!("<?{PAGE}?>"),
        &format!("<a b='{PAGE}'/>"),
        &format!("<METADATA b='{PAGE}'></METADATA>"),
    ]);
}

#[test]
fn names_are_compared_byte_by_byte() {
    for name in ["METADATA", "AttachmentSchema", "DataFormat"] {
        let shorter = &name[..name.len() - 1];
        let longer = format!("{name}s");
        let others = [
            name.to_lowercase(),
            name.to_uppercase().replace("METADATA", "Metadata"),
            shorter.to_string(),
            longer,
            format!("x:{name}"),
            format!("{name}\u{b}"),
            format!("{name}\u{c}"),
            format!("{name}\0"),
            format!("{name}="),
            format!("{name}\"\""),
        ];
        for other in others {
            declare_nothing(&[&PAGE.replace(name, &other)]);
        }
    }
}

#[test]
fn just_the_value_stands_between_the_last_tags() {
    declare(&[&value("CHUNKCONTAINER")]);
    let others = [
        "",
        " ",
        " CHUNKCONTAINER",
        "CHUNKCONTAINER ",
        "\nCHUNKCONTAINER",
        "CHUNKCONTAINER\n",
        "CHUNK CONTAINER",
        "chunkcontainer",
        "ChunkContainer",
        "CHUNKCONTAINE",
        "HUNKCONTAINER",
        "CHUNKCONTAINERS",
        "CHUNKCONTAINER\0",
        "CHUNKCONTAINERCHUNKCONTAINER",
        "CHUNKCONTAINER<!---->",
        "<!---->CHUNKCONTAINER",
        "CHUNK<!---->CONTAINER",
        "CHUNKCONTAINER<??>",
        "<![CDATA[CHUNKCONTAINER]]>",
        "CHUNKCONTAINER<![CDATA[]]>",
        "CHUNKCONTAINER<a/>",
        "<a/>CHUNKCONTAINER",
        "<a>CHUNKCONTAINER</a>",
        "&#67;HUNKCONTAINER",
        "CHUNKCONTAINE&#82;",
        "CHUNKCONTAINER>",
    ];
    for other in others {
        declare_nothing(&[&value(other)]);
    }
    declare_nothing(&[&data_format("<DataFormat/>", "CHUNKCONTAINER", "")]);
}

#[test]
fn the_three_start_tags_have_attributes_and_white_space() {
    for name in ["METADATA", "AttachmentSchema", "DataFormat"] {
        let start = format!("<{name}>");
        let others = [
            " ",
            "\t",
            "\n",
            "\r",
            " \r\n\t ",
            " a=\"b\"",
            "\na='b'",
            " a = 'b' ",
            " a",
            " =",
            " a=\"<>/'\"",
            " a='<>/\"'",
            " a=\"/\"",
            "/ ",
            "/a",
            " / ",
            "//a",
            " a=''b=\"\"",
        ];
        for other in others {
            declare(&[&PAGE.replace(&start, &format!("<{name}{other}>"))]);
        }
        let not = [
            "\u{b}", "\u{c}", "\u{a0}", "/", " /", " a=/", " a='b'/", " a=\"", " a='", " a=<",
            " <", "<",
        ];
        for other in not {
            declare_nothing(&[&PAGE.replace(&start, &format!("<{name}{other}>"))]);
        }
    }
}

#[test]
fn the_three_end_tags_have_white_space_alone() {
    for name in ["METADATA", "AttachmentSchema", "DataFormat"] {
        let end = format!("</{name}>");
        for other in [" ", "\t", "\n", "\r", " \r\n\t "] {
            declare(&[&PAGE.replace(&end, &format!("</{name}{other}>"))]);
        }
        for other in [
            "/", " /", "/ ", " a", " a='b'", "\u{b}", "\u{c}", " <", "<", "\"", " '",
        ] {
            declare_nothing(&[&PAGE.replace(&end, &format!("</{name}{other}>"))]);
        }
        declare_nothing(&[
            &PAGE.replace(&end, &format!("</ {name}>")),
            &PAGE.replace(&end, &format!("< /{name}>")),
            &PAGE.replace(&end, ""),
            &PAGE.replace(&end, "</>"),
            &PAGE.replace(&end, &format!("<{name}>")),
            &PAGE.replace(&end, &format!("<{name}/>")),
        ]);
    }
}

#[test]
fn any_outermost_metadata_may_declare() {
    let other = "<METADATA><a>b</a></METADATA>";
    declare(&[
        &format!("{PAGE}{PAGE}"),
        &format!("{other}{PAGE}"),
        &format!("{PAGE}{other}"),
        &format!("{}{PAGE}", value("other")),
        &format!("{PAGE}{}", value("other")),
        &format!("<METADATA/>{PAGE}<METADATA/>"),
        &format!("text <a/> {PAGE} <b></b> text"),
        &format!("<a>{PAGE}</a>{PAGE}"),
    ]);
    declare_nothing(&[
        &format!("{other}{other}"),
        &format!("{}{}", value("other"), value("")),
        &format!("{PAGE}<"),
        &format!("{PAGE}<a>"),
        &format!("{PAGE}</METADATA>"),
        &format!("<METADATA>{PAGE}"),
    ]);
}

#[test]
fn any_schema_and_any_data_format_of_the_section_may_declare() {
    let marker = "<DataFormat>CHUNKCONTAINER</DataFormat>";
    let other = "<DataFormat>other</DataFormat>";
    let schema = |inner: &str| format!("<AttachmentSchema>{inner}</AttachmentSchema>");
    let both = |one: &str, two: &str| format!("<METADATA>{one}{two}</METADATA>");
    declare(&[
        &both(&schema(other), &schema(marker)),
        &both(&schema(marker), &schema(other)),
        &both("<AttachmentSchema/>", &schema(marker)),
        &both("", &schema(&format!("{other}{marker}"))),
        &both("", &schema(&format!("{marker}{other}"))),
        &both("", &schema(&format!("<DataFormat/>{marker}"))),
    ]);
    declare_nothing(&[
        &both(&schema(other), &schema("")),
        &both(&schema(other), marker),
        &both("", &schema(&format!("{other}<DataFormat/>"))),
    ]);
}

/// A section beside `open` start tags that are open at once, with that in the innermost.
fn nested(open: usize, innermost: &str) -> String {
    let (starts, ends) = ("<a>".repeat(open), "</a>".repeat(open));
    format!("{PAGE}{starts}{innermost}{ends}")
}

#[test]
fn sixty_four_start_tags_may_be_open_at_once() {
    declare(&[
        &nested(64, ""),
        &nested(64, "<a/>"),
        &nested(64, "<a/><!----><??><![CDATA[]]>text"),
        &nested(63, "<a></a><a></a>"),
    ]);
    declare_nothing(&[
        &nested(65, ""),
        &nested(64, "<a></a>"),
        &nested(64, "<a>"),
        &nested(64, "<a/ ></a>"),
        &nested(66, "<a/>"),
    ]);
    // The section's own start tags count: METADATA and AttachmentSchema stand around these.
    for (open, is_read) in [(62, true), (63, false)] {
        let inner = format!("{}{}", "<a>".repeat(open), "</a>".repeat(open));
        let metadata = PAGE.replace("<DataFormat>", &format!("{inner}<DataFormat>"));
        assert_eq!(declares_container(metadata.as_bytes()), is_read, "{open}");
    }
    // One after the other they are not open at once.
    declare(&[&format!("{PAGE}{}", "<a></a>".repeat(1000))]);
}

#[test]
fn deep_metadata_end_at_the_65th_start_tag() {
    for tag in ["<a>", "<METADATA>", "<a b='c'>", "<a/ >", "<a><!---->"] {
        let deep = tag.repeat(1 << 20);
        declare_nothing(&[&deep, &format!("{PAGE}{deep}")]);
    }
    let deep = format!("{PAGE}{}{}", "<a>".repeat(1 << 20), "</a>".repeat(1 << 20));
    declare_nothing(&[&deep]);
}

#[test]
fn four_mebibytes_of_one_kind() {
    const LENGTH: usize = 4 << 20;
    let many = |part: &str| part.repeat(LENGTH / part.len());
    let read = [
        many("a"),
        many(" "),
        many(">"),
        many("<a></a>"),
        many("<a/>"),
        many("<!---->"),
        many("<??>"),
        many("<![CDATA[]]>"),
        format!("<a{}/>", many(" b='c'")),
        format!("<a b='{}'/>", many("<")),
        format!("<{0}></{0}>", "n".repeat(LENGTH / 2)),
        format!("<a></a{}>", many(" ")),
        format!("<!--{}-->", many("-")),
        format!("<![CDATA[{}]]>", many("]")),
        format!("<?{}?>", many("?")),
    ];
    for part in read {
        declare(&[&format!("{PAGE}{part}"), &format!("{part}{PAGE}")]);
    }
    let open = [
        many("<"),
        many("</a>"),
        format!("<!--{}", many("-")),
        format!("<![CDATA[{}", many("]")),
        format!("<?{}", many("?")),
        format!("<{}", many("n")),
        format!("<a {}", many("b")),
        format!("<a '{}", many("b")),
        format!("<{}></a>", many("n")),
    ];
    for part in open {
        declare_nothing(&[&format!("{PAGE}{part}")]);
    }
}

#[test]
fn only_declared_chunks_are_judged_and_masks_used() {
    let tile = Tile::gray8(0, 0, 2, &[1, 2], &[]);
    let mask = mask_chunk(2, 1, 1, &[0x80]);
    let marker = b"<DataFormat>CHUNKCONTAINER</DataFormat>";
    for (metadata, declares) in [(SECTION, true), (PAGE.as_bytes(), true), (marker, false)] {
        let mut tile = tile.clone().with_container(&mask);
        tile.metadata = metadata.to_vec();
        let bytes = file(&[tile.clone()]);
        let judged = judge(&bytes, Release::V1_2).unwrap();
        assert_eq!(judged.tile(0).unwrap().mask.is_some(), declares);
        tile.attachment = vec![0; 7];
        let refusal = judge(&file(&[tile]), Release::V1_2).err();
        let number = refusal.map(|refusal| refusal.number);
        assert_eq!(number, declares.then_some(17));
    }
}
