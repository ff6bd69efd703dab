//! Req 04, repack without the dead segments: what is kept, what becomes zero, what is
//! rewritten, and the order of refusals.

mod build;

use build::{file, mask_chunk, segment, Tile};
use reference::{judge, Refusal, Release};

/// The clean file under 1.2, and it is as long as was said before.
fn repacked(bytes: &[u8]) -> Vec<u8> {
    let file = judge(bytes, Release::V1_2).unwrap();
    let size = file.repack_size().unwrap() as usize;
    let mut out = vec![0x55; size + 3];
    assert_eq!(file.repack(&mut out), Ok(size as u64));
    assert_eq!(out.split_off(size), [0x55; 3], "bytes past the file stay");
    out
}

fn int(bytes: &[u8], at: usize) -> i32 {
    i32::from_le_bytes(bytes[at..at + 4].try_into().unwrap())
}

fn long(bytes: &[u8], at: usize) -> usize {
    i64::from_le_bytes(bytes[at..at + 8].try_into().unwrap()) as usize
}

/// Name, AllocatedSize and UsedSize of the segment at that position.
fn header(bytes: &[u8], at: usize) -> (&str, usize, usize) {
    let name = std::str::from_utf8(&bytes[at..at + 16]).unwrap();
    let name = name.trim_end_matches('\0');
    (name, long(bytes, at + 16), long(bytes, at + 24))
}

/// All segments, each with its position.
fn walk(bytes: &[u8]) -> Vec<(usize, &str, usize, usize)> {
    let mut segments = Vec::new();
    let mut at = 0;
    while at < bytes.len() {
        let (name, allocated, used) = header(bytes, at);
        segments.push((at, name, allocated, used));
        at += 32 + allocated;
    }
    segments
}

/// A segment that is allocated more than its content, the rest of it junk.
fn roomy(name: &str, content: &[u8], used: i64) -> Vec<u8> {
    let mut bytes = segment(name, &[content, &[0xEE; 75]].concat());
    bytes[24..32].copy_from_slice(&used.to_le_bytes());
    let held = 32 + content.len() + 75;
    bytes[held..].fill(0xDD);
    bytes
}

/// The 288-byte file: the file segment grows to 512, and that is all.
#[test]
fn the_smallest_file() {
    let mut bytes = file(&[]);
    assert_eq!(bytes.len(), 288);
    bytes[32 + 4] = 7;
    bytes[32 + 16..32 + 48].fill(0xAB);
    let clean = repacked(&bytes);
    let wanted = [
        (0, "ZISRAWFILE", 512, 512),
        (544, "ZISRAWDIRECTORY", 128, 128),
    ];
    assert_eq!(walk(&clean), wanted);
    let mut content = vec![0; 512];
    (content[0], content[4]) = (1, 7);
    content[16..48].fill(0xAB);
    content[52..54].copy_from_slice(&544u16.to_le_bytes());
    assert_eq!(clean[32..544], content);
    assert!(clean[576..].iter().all(|byte| *byte == 0));
    assert_eq!(repacked(&clean), clean);
}

/// A file with junk wherever a byte is spare, dead segments everywhere, a sub-block and
/// an attachment listed twice; the directory stands last.
fn junk() -> Vec<u8> {
    let mut head = [0xEE; 200];
    head[0..4].copy_from_slice(&1i32.to_le_bytes());
    head[4..8].copy_from_slice(&9i32.to_le_bytes());
    head[48..80].fill(0);
    let mut bytes = segment("ZISRAWFILE", &head);
    let dead = |name: &str| roomy(name, &[0xCC; 40], 0);
    bytes.extend(dead("DELETED"));

    // A sub-block of 11 dimensions: F is 268.
    let sub_block = bytes.len();
    let mut entry = b"DV".to_vec();
    entry.extend(0i32.to_le_bytes());
    entry.extend((sub_block as i64).to_le_bytes());
    entry.extend([0; 8]);
    entry.extend([3, 1, 2, 3, 4, 5]);
    entry.extend(11i32.to_le_bytes());
    for (letter, size) in b"XYABCDEFGHI".iter().zip([3, 1, 1, 1, 1, 1, 1, 1, 1, 1, 1]) {
        entry.extend([*letter, 0, 0, 0, 0xFF, 0xFF, 0xFF, 0xFF]);
        entry.extend(i32::to_le_bytes(size));
        entry.extend(0x7F80_0001u32.to_le_bytes());
        entry.extend(0i32.to_le_bytes());
    }
    let mut copy = entry.clone();
    copy[23..28].fill(0xBB);
    let mut content = 5i32.to_le_bytes().to_vec();
    content.extend(2i32.to_le_bytes());
    content.extend(3i64.to_le_bytes());
    content.extend(&copy);
    assert_eq!(content.len(), 268);
    content.extend(b"<xml>pixat");
    bytes.extend(roomy("ZISRAWSUBBLOCK", &content, 278));
    bytes.extend(dead("ZISRAWSUBBLOCK"));

    let metadata = bytes.len();
    let mut content = vec![0xEE; 256];
    content[0..4].copy_from_slice(&3i32.to_le_bytes());
    content[4..8].copy_from_slice(&4i32.to_le_bytes());
    content.extend(b"xmlattd");
    bytes.extend(roomy("ZISRAWMETADATA", &content, 0));

    let attachment = bytes.len();
    let mut a1 = b"A1".to_vec();
    a1.extend([0xEE; 10]);
    a1.extend((attachment as i64).to_le_bytes());
    a1.extend(0i32.to_le_bytes());
    a1.extend([0x11; 16]);
    a1.extend(b"CZEXP\0\0\0");
    a1.extend([b"name\0".as_slice(), &[0x77; 75]].concat());
    assert_eq!(a1.len(), 128);
    let mut content = 6i32.to_le_bytes().to_vec();
    content.extend([0xEE; 12]);
    content.extend(&a1);
    content.resize(256, 0xEE);
    content.extend(b"sample");
    bytes.extend(roomy("ZISRAWATTACH", &content, 270));
    let listed = bytes.len();
    let mut content = 2i32.to_le_bytes().to_vec();
    content.resize(256, 0xEE);
    content.extend([&a1[..], &a1].concat());
    bytes.extend(roomy("ZISRAWATTDIR", &content, 0));

    let directory = bytes.len();
    let mut content = 2i32.to_le_bytes().to_vec();
    content.resize(128, 0xEE);
    content.extend(&entry);
    entry[23..28].fill(0);
    content.extend(&entry);
    bytes.extend(roomy("ZISRAWDIRECTORY", &content, 0));
    bytes.extend(dead("ZISRAWDIRECTORY"));
    for (field, position) in [(84, directory), (92, metadata), (104, listed)] {
        bytes[field..field + 8].copy_from_slice(&(position as i64).to_le_bytes());
    }
    bytes
}

#[test]
fn what_is_kept_and_what_becomes_zero() {
    let bytes = junk();
    let clean = repacked(&bytes);
    let directory = 544;
    let first = directory + 32 + 640;
    let second = first + 32 + 288;
    let metadata = second + 32 + 288;
    let listed = metadata + 32 + 288;
    let attached = [listed + 32 + 512, listed + 32 + 512 + 32 + 288];
    let wanted = [
        (0, "ZISRAWFILE", 512, 512),
        (directory, "ZISRAWDIRECTORY", 640, 128 + 2 * 252),
        (first, "ZISRAWSUBBLOCK", 288, 278),
        (second, "ZISRAWSUBBLOCK", 288, 278),
        (metadata, "ZISRAWMETADATA", 288, 263),
        (listed, "ZISRAWATTDIR", 512, 512),
        (attached[0], "ZISRAWATTACH", 288, 262),
        (attached[1], "ZISRAWATTACH", 288, 262),
    ];
    assert_eq!(walk(&clean), wanted);

    let is_zero = |at: usize, end: usize| clean[at..end].iter().all(|byte| *byte == 0);
    // The file segment.
    assert_eq!((int(&clean, 32), int(&clean, 36)), (1, 9));
    assert!(is_zero(40, 48));
    assert_eq!(clean[48..80], [0xEE; 32]);
    assert_eq!(int(&clean, 80), 0);
    let named = [84, 92, 104].map(|field| long(&clean, field));
    assert_eq!(named, [directory, metadata, listed]);
    assert!(is_zero(100, 104) && is_zero(112, 544));

    // Entries and copies: the position is the new one, 23 to 27 are zero, all else stays.
    let old_entry = |number: usize| {
        let at = long(&bytes, 84) + 32 + 128 + 252 * number;
        bytes[at..at + 252].to_vec()
    };
    assert_eq!(int(&clean, directory + 32), 2);
    assert!(is_zero(directory + 36, directory + 160));
    for (number, sub_block) in [first, second].into_iter().enumerate() {
        let mut entry = old_entry(number);
        entry[6..14].copy_from_slice(&(sub_block as i64).to_le_bytes());
        entry[23..28].fill(0);
        let at = directory + 32 + 128 + 252 * number;
        assert_eq!(clean[at..at + 252], entry);
        let content = sub_block + 32;
        assert_eq!((int(&clean, content), int(&clean, content + 4)), (5, 2));
        assert_eq!(long(&clean, content + 8), 3);
        assert_eq!(clean[content + 16..content + 268], entry);
        assert_eq!(clean[content + 268..content + 278], *b"<xml>pixat");
        assert!(is_zero(content + 278, content + 288));
    }
    assert!(is_zero(directory + 32 + 632, first));

    let content = metadata + 32;
    assert_eq!((int(&clean, content), int(&clean, content + 4)), (3, 4));
    assert!(is_zero(content + 8, content + 256));
    assert_eq!(clean[content + 256..content + 263], *b"xmlattd");
    assert!(is_zero(content + 263, listed));

    assert_eq!(int(&clean, listed + 32), 2);
    assert!(is_zero(listed + 36, listed + 32 + 256));
    for (number, attachment) in attached.into_iter().enumerate() {
        let at = listed + 32 + 256 + 128 * number;
        let content = attachment + 32;
        for entry in [at, content + 16] {
            assert_eq!(clean[entry..entry + 2], *b"A1");
            assert!(is_zero(entry + 2, entry + 12));
            assert_eq!(long(&clean, entry + 12), attachment);
            assert!(is_zero(entry + 20, entry + 24));
            assert_eq!(clean[entry + 24..entry + 40], [0x11; 16]);
            assert_eq!(clean[entry + 40..entry + 53], *b"CZEXP\0\0\0name\0");
            assert_eq!(clean[entry + 53..entry + 128], [0x77; 75]);
        }
        assert_eq!(int(&clean, content), 6);
        assert!(is_zero(content + 4, content + 16));
        assert!(is_zero(content + 144, content + 256));
        assert_eq!(clean[content + 256..content + 262], *b"sample");
        assert!(is_zero(content + 262, content + 288));
    }
    assert_eq!(repacked(&clean), clean, "again");
}

/// The file with another position in a field of the file segment.
fn with(mut bytes: Vec<u8>, field: usize, position: i64) -> Vec<u8> {
    bytes[field..field + 8].copy_from_slice(&position.to_le_bytes());
    bytes
}

#[test]
fn absent_ones_stay_absent() {
    let kinds = |bytes: &[u8]| -> Vec<String> {
        let clean = repacked(bytes);
        let all = walk(&clean);
        all.into_iter().skip(4).map(|s| s.1.to_string()).collect()
    };
    let (metadata, listed) = ("ZISRAWMETADATA", "ZISRAWATTDIR");
    let attachment = "ZISRAWATTACH";
    let bytes = junk();
    let without_metadata = with(bytes.clone(), 92, 0);
    assert_eq!(kinds(&without_metadata), [listed, attachment, attachment]);
    let without_both = with(without_metadata, 104, 0);
    assert_eq!(kinds(&without_both), [""; 0]);
    assert_eq!(kinds(&with(bytes.clone(), 104, 0)), [metadata]);
    let clean = repacked(&without_both);
    assert_eq!([92, 104].map(|field| long(&clean, field)), [0, 0]);

    // A directory with no entry is there.
    let mut none = bytes;
    let listed_at = long(&none, 104);
    none[listed_at + 32..listed_at + 36].fill(0);
    assert_eq!(kinds(&none), [metadata, listed]);
}

#[test]
fn refusals_in_their_order_and_nothing_changes() {
    let mask = mask_chunk(1, 1, 1, &[0]);
    let broken = Tile::gray8(0, 0, 1, &[7], &[]).with_container(&mask[..mask.len() - 1]);
    let bytes = file(&[broken]);
    let refused = judge(&bytes, Release::V1_2).err().map(|r| r.number);
    assert_eq!(refused, Some(17));
    let file = judge(&bytes, Release::V1_02).unwrap();
    let size = file.repack_size().unwrap() as usize;
    for length in [0, 1, size - 1] {
        let mut out = vec![0x55; length];
        assert_eq!(file.repack(&mut out), Err(Refusal::new(25, 0)));
        assert_eq!(out, vec![0x55; length]);
    }
    let mut out = vec![0x55; size];
    assert_eq!(file.repack(&mut out), Ok(size as u64));
    // What 1.2 refuses it refuses of the clean file too.
    let again = judge(&out, Release::V1_2).err().map(|r| r.number);
    assert_eq!(
        (again, judge(&out, Release::V1_02).is_ok()),
        (Some(17), true)
    );
}

/// A file of that many entries of one sub-block, and of one attachment, with or without
/// a metadata segment.
fn listing(entries: usize, attachments: usize, has_metadata: bool) -> Vec<u8> {
    let tile = Tile::gray8(0, 0, 1, &[7], &[]);
    let mut bytes = file(&[tile]);
    let entry = bytes[288..288 + 72].to_vec();
    let directory = bytes.len() as i64;
    let mut content = (entries as i32).to_le_bytes().to_vec();
    content.resize(128, 0);
    content.extend(entry.repeat(entries));
    bytes.extend(segment("ZISRAWDIRECTORY", &content));
    let attachment = bytes.len() as i64;
    let mut a1 = b"A1".to_vec();
    a1.resize(128, 0);
    a1[12..20].copy_from_slice(&attachment.to_le_bytes());
    let mut content = vec![0; 16];
    content.extend(&a1);
    content.resize(256, 0);
    bytes.extend(segment("ZISRAWATTACH", &content));
    let listed = bytes.len() as i64;
    let mut content = (attachments as i32).to_le_bytes().to_vec();
    content.resize(256, 0);
    content.extend(a1.repeat(attachments));
    bytes.extend(segment("ZISRAWATTDIR", &content));
    let metadata = bytes.len() as i64;
    bytes.extend(segment("ZISRAWMETADATA", &[0; 256]));
    let bytes = with(with(bytes, 84, directory), 104, listed);
    match has_metadata {
        true => with(bytes, 92, metadata),
        false => bytes,
    }
}

#[test]
fn at_most_8_192_segments() {
    let number = |entries, attachments, has_metadata| {
        let bytes = listing(entries, attachments, has_metadata);
        let file = judge(&bytes, Release::V1_2).unwrap();
        let size = file.repack_size();
        let nothing = file.repack(&mut []).unwrap_err();
        match size {
            Ok(_) => assert_eq!(nothing, Refusal::new(25, 0)),
            Err(refusal) => assert_eq!(nothing, refusal, "36 before 25"),
        }
        size.err().map(|refusal| (refusal.number, refusal.place))
    };
    for (entries, attachments, has_metadata) in [
        (4096, 4092, true),
        (4096, 4093, false),
        (4092, 4096, true),
        (4093, 4096, false),
    ] {
        assert_eq!(number(entries, attachments, has_metadata), None);
        let one_more = (entries + 1).min(4096);
        let more = (attachments + 1).min(4096);
        assert_eq!(number(one_more, more, has_metadata), Some((36, 0)));
    }
}
