//! Paper 02, Req 01: what reads and nests beside the section, and what does not.
//! Every reading of the request from both sides.

mod beside;

use beside::{read_beside, spoil};

#[test]
fn an_end_tag_has_at_most_white_space_behind_its_name() {
    read_beside(&[b"<a></a >", b"<a></a\n>"]);
    spoil(&[
        b"<a></a/>",
        b"<a></a b>",
        b"<a></a ",
        b"<a></a",
        b"<a></",
        b"<a><",
    ]);
}

#[test]
fn text_is_anything_but_an_opening_bracket() {
    read_beside(&[
        b"",
        b" ",
        b"text",
        b">",
        b">>",
        b"]]>",
        b"-->",
        b"?>",
        b"/>",
        b"\"",
        b"'",
        b"&",
        b"&lt;",
        b"=",
        b"!",
        b"\0",
        b"\xEF\xBB\xBF",
        b"\xFF\xFE",
        b"\x80",
        b"CHUNKCONTAINER",
    ]);
    spoil(&[
        b"<", b"< ", b"a < b", b"<>", b"< >", b"<<", b"<\t", b"</>", b"</ >", b"<=", b"<\"",
    ]);
}

#[test]
fn a_name_is_not_empty_and_does_not_begin_with_an_exclamation_mark() {
    read_beside(&[b"<a/>", b"<a></a>", b"<a!></a!>", b"<a?></a?>"]);
    spoil(&[
        b"< a/>",
        b"< a></a>",
        b"<//>",
        b"<a></>",
        b"<a></ a>",
        b"<!a/>",
        b"<!a></!a>",
        b"<a></!a>",
        b"<!></!>",
        b"<!/>",
    ]);
}

#[test]
fn a_name_holds_any_other_byte() {
    read_beside(&[
        b"<\"></\">",
        b"<a\"b></a\"b>",
        b"<a'/>",
        b"<=></=>",
        b"<a=b></a=b>",
        b"<\0></\0>",
        b"<a\x0b></a\x0b>",
        b"<a\x0c/>",
        b"<\xC3\xA9></\xC3\xA9>",
        b"<-></->",
        b"<]]></]]>",
        b"<[CDATA[/>",
        b"<&></&>",
        b"<\xA0/>",
    ]);
    // A quote in a name is a byte of it and opens nothing.
    read_beside(&[b"<a\">\"></a\">", b"<a'/>'"]);
    spoil(&[
        b"<a\">\"></a>",
        b"<a'/>'></a'>",
        b"<a<b></a<b>",
        b"<a<></a<>",
        b"<a</a>",
    ]);
}

#[test]
fn a_name_ends_before_white_space_slash_or_bracket() {
    read_beside(&[
        b"<a b></a>",
        b"<a\tb></a>",
        b"<a\nb></a>",
        b"<a\rb></a>",
        b"<a/b></a>",
        b"<a/>",
    ]);
    spoil(&[
        b"<a b></a b>",
        b"<a/b></a/b>",
        b"<a\x0bb></a>",
        b"<a\x0cb></a>",
        b"<a=b></a>",
    ]);
}

#[test]
fn quotes_are_respected_in_a_start_tag_alone() {
    read_beside(&[
        b"<a b=\">\"></a>",
        b"<a b='>'></a>",
        b"<a b=\"<\"></a>",
        b"<a b='<c>'/>",
        b"<a b=\"'\"></a>",
        b"<a b='\"'></a>",
        b"<a \"\"></a>",
        b"<a b='-->' c=']]>' d='?>'/>",
        b"<a b='<!--'/>",
        b"<a b=\"x\"c='y'></a>",
        b"<a/\">\"></a>",
        // Not in text, an end tag's place, a comment, an instruction, a section.
        b"\"<a>'</a>",
        b"'<a/>",
        b"<!-- \" -->",
        b"<? ' ?>",
        b"<![CDATA[ \" ]]>",
    ]);
    spoil(&[
        b"<a b=\"></a>",
        b"<a b='></a>",
        b"<a b=\"'></a>",
        b"<a b='\"></a>",
        b"<a b=\"\"\"></a>",
        b"<a b=></a>'></a>",
        b"<a></a '>'>",
        b"<!-- \"-->\" -->\"<",
        b"<? '?>' <",
    ]);
}

#[test]
fn a_start_tag_ends_at_the_first_bracket_outside_quotes() {
    read_beside(&[b"<a>></a>", b"<a b=\">\">></a>", b"<a/>>", b"<a b=c></a>"]);
    spoil(&[
        b"<a b=<c></a>",
        b"<a <b></a>",
        b"<a b=\"c\"<></a>",
        b"<a </a>",
        b"<a/<></a>",
    ]);
}

#[test]
fn a_slash_just_before_the_bracket_makes_it_empty() {
    read_beside(&[
        b"<a/>",
        b"<a />",
        b"<a b=/>",
        b"<a b='c'/>",
        b"<a//>",
        b"<a/ />",
        b"<a /b/>",
    ]);
    spoil(&[b"<a/></a>", b"<a b=/></a>", b"<a b='c'/></a>", b"<a//></a>"]);
    // An open start tag, with the slash elsewhere.
    read_beside(&[
        b"<a/ ></a>",
        b"<a/b></a>",
        b"<a/\n></a>",
        b"<a b=\"/\"></a>",
        b"<a b='/'></a>",
    ]);
    spoil(&[
        b"<a/ >",
        b"<a/b>",
        b"<a/\n>",
        b"<a b=\"/\">",
        b"<a b='/'>",
        b"<a \"/\">",
    ]);
}

#[test]
fn comments_are_skipped() {
    read_beside(&[
        b"<!---->",
        b"<!-- a -->",
        b"<!-- <a> </b> < -->",
        b"<!-- -- -->",
        b"<!----->",
        b"<!-->-->",
        b"<!--->-->",
        b"<!--<!---->",
        b"<!-- ]]> ?> -->",
        b"<!-- <![CDATA[ <? -->",
        b"<!---->-->",
        b"<!--\"-->",
    ]);
    spoil(&[
        b"<!--",
        b"<!-->",
        b"<!--->",
        b"<!-- a",
        b"<!-- a --",
        b"<!-- a ->",
        b"<!-- a ]]>",
        b"<!-- a ?>",
        b"<!- a -->",
        b"<! -- a -->",
        b"<!",
        b"<!-",
        b"<!->",
        b"<!-- a --!>",
        b"<!-- a -- >",
    ]);
}

#[test]
fn instructions_are_skipped() {
    read_beside(&[
        b"<??>",
        b"<?xml version=\"1.0\"?>",
        b"<? a > < ?>",
        b"<?>?>",
        b"<???>",
        b"<?<??>",
        b"<?-- ]]> --> ?>",
        b"<?/?>",
        b"<??>?>",
    ]);
    spoil(&[
        b"<?",
        b"<?>",
        b"<? a",
        b"<? a ?",
        b"<? a >",
        b"<? a ? >",
        b"<?a></?a>",
        b"<?a/>",
    ]);
}

#[test]
fn character_data_sections_are_skipped() {
    read_beside(&[
        b"<![CDATA[]]>",
        b"<![CDATA[ <a> </b> < & ]]>",
        b"<![CDATA[]]]>",
        b"<![CDATA[]]]]>",
        b"<![CDATA[] ]> ]]>",
        b"<![CDATA[<![CDATA[]]>",
        b"<![CDATA[--> ?>]]>",
        b"<![CDATA[]]>]]>",
        b"<![CDATA[>]]>",
    ]);
    spoil(&[
        b"<![CDATA[",
        b"<![CDATA[]",
        b"<![CDATA[]]",
        b"<![CDATA[]>",
        b"<![CDATA]]>",
        b"<![CDATA",
        b"<![cdata[]]>",
        b"<![CDATA []]>",
        b"<! [CDATA[]]>",
        b"<![IGNORE[]]>",
        b"<![[]]>",
        b"<![CDATA[ -->",
        b"<![CDATA[]] >",
    ]);
}

#[test]
fn other_uses_of_the_bracket_do_not_read() {
    spoil(&[
        b"<!DOCTYPE a>",
        b"<!ELEMENT a ANY>",
        b"<!>",
        b"<!/>",
        b"<! a>",
        b"<!a>",
        b"<![",
        b"<!C",
        b"</?>",
        b"</ >",
        b"</",
        b"</!-- -->",
    ]);
}

#[test]
fn an_end_tag_of_an_instructions_name_reads_and_matches_nothing() {
    spoil(&[b"</?a>", b"<a></?a>", b"<?a></?a>", b"<?a?></?a>"]);
    read_beside(&[b"<?a></?a>?>", b"<?</?a?>"]);
}

#[test]
fn elements_nest() {
    read_beside(&[
        b"<a></a>",
        b"<a><b></b></a>",
        b"<a><a></a></a>",
        b"<a></a><a></a>",
        b"<a><b/><c></c>text</a>",
        b"<a><DataFormat>CHUNKCONTAINER</DataFormat></a>",
        b"<a><METADATA></METADATA></a>",
        b"<METADATA></METADATA><AttachmentSchema/>",
    ]);
    spoil(&[
        b"<a>",
        b"</a>",
        b"<a></b>",
        b"<a></A>",
        b"<a></aa>",
        b"<aa></a>",
        b"<a><b></a></b>",
        b"<a><b></a>",
        b"<a></b></a>",
        b"<a></a></a>",
        b"</a><a>",
        b"<a><a></a>",
        b"</AttachmentSchema></METADATA>",
        b"<a><!--</a>-->",
        b"<a><b/></b></a>",
    ]);
}
