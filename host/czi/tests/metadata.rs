//! Which metadata of a sub-block declare a chunk container, and that long and deep
//! ones are read to their end.

use czi::{Reason, Refusal};
use generate::OneTile;

/// The section of the mask page, source document 002.
const PAGE: &str = "\
<METADATA>
  <AttachmentSchema>
    <DataFormat>CHUNKCONTAINER</DataFormat>
  </AttachmentSchema>
</METADATA>";

/// Is the file refused for its attachment, which is no row of chunks?
fn declares(metadata: &str) -> bool {
    let mut file = OneTile::new();
    match czi::judge(file.with(metadata.as_bytes(), &OneTile::NO_CHUNK)) {
        Ok(()) => false,
        Err(refusal) => {
            let place = OneTile::attachment_at(metadata.as_bytes());
            assert_eq!(refusal, Refusal::new(17, place));
            assert_eq!(refusal.reason, Reason::Chunk);
            true
        }
    }
}

#[test]
fn the_page_declares_a_container_and_the_marker_elsewhere_does_not() {
    assert!(declares(PAGE));
    assert!(declares(&format!(
        "<?xml version='1.0'?>\n<!-- a --> {PAGE} <b/>"
    )));
    let marker = "<DataFormat>CHUNKCONTAINER</DataFormat>";
    for other in [
        String::new(),
        marker.to_string(),
        format!("<METADATA>{marker}</METADATA>"),
        format!("<a>{PAGE}</a>"),
        format!("<!--{PAGE}-->"),
        format!("<![CDATA[{PAGE}]]>"),
        format!("{PAGE}<"),
        PAGE.replace("CHUNK", " CHUNK"),
        PAGE.replace("METADATA", "Metadata"),
        PAGE[..PAGE.len() - 1].to_string(),
    ] {
        assert!(!declares(&other), "{other}");
    }
}

#[test]
fn a_mask_is_there_where_the_metadata_declare_it() {
    let mut file = OneTile::new();
    for (metadata, masked) in [(PAGE, true), (&PAGE[1..], false)] {
        let bytes = file.with(metadata.as_bytes(), &OneTile::mask([0xF0, 0]));
        assert_eq!(czi::tile(bytes, 0).unwrap().mask.is_some(), masked);
    }
}

#[test]
fn sixty_four_start_tags_may_be_open_at_once() {
    let nested = |open: usize, inner: &str| {
        format!("{PAGE}{}{inner}{}", "<a>".repeat(open), "</a>".repeat(open))
    };
    assert!(declares(&nested(64, "")));
    assert!(declares(&nested(64, "<a/>")));
    assert!(!declares(&nested(65, "")));
    assert!(!declares(&nested(64, "<a></a>")));
    for (open, is_read) in [(62, true), (63, false)] {
        let inner = format!("{}{}", "<a>".repeat(open), "</a>".repeat(open));
        let metadata = PAGE.replace("<DataFormat>", &format!("{inner}<DataFormat>"));
        assert_eq!(declares(&metadata), is_read, "{open}");
    }
}

#[test]
fn deep_metadata_declare_nothing() {
    for tag in ["<a>", "<METADATA>", "<a b='c'>", "<a/ >"] {
        assert!(
            !declares(&format!("{PAGE}{}", tag.repeat(1 << 20))),
            "{tag}"
        );
    }
}

#[test]
fn four_mebibytes_of_one_kind() {
    const LENGTH: usize = 4 << 20;
    let many = |part: &str| part.repeat(LENGTH / part.len());
    let name = "n".repeat(LENGTH / 2);
    for (part, is_read) in [
        (many("a"), true),
        (many("<a></a>"), true),
        (many("<a/>"), true),
        (many("<!---->"), true),
        (format!("<a{}/>", many(" b='c'")), true),
        (format!("<{name}></{name}>"), true),
        (format!("<!--{}-->", many("-")), true),
        (format!("<![CDATA[{}]]>", many("]")), true),
        (format!("<!--{}", many("-")), false),
        (format!("<![CDATA[{}", many("]")), false),
        (format!("<{name}></{name}n>"), false),
        (format!("<a '{}", many("b")), false),
        (many("<"), false),
    ] {
        let begun = &part[..part.len().min(20)];
        assert_eq!(declares(&format!("{PAGE}{part}")), is_read, "{begun}");
    }
}
