//! What native code does for metadata of a sub-block: one pass, byte by byte, with a table of the open names.

use std::hint::black_box;

/// So many start tags may be open at once.
const MOST_OPEN: usize = 64;

/// The names of the section, the outermost first.
const SECTION: [&[u8]; 3] = [b"METADATA", b"AttachmentSchema", b"DataFormat"];

/// What metadata are.
#[derive(Clone, Copy, Debug, PartialEq, Eq)]
pub enum Scanned {
    /// They don't read or don't nest.
    Spoilt,
    /// They read to the last byte and declare nothing.
    Plain,
    /// They declare a chunk container.
    Container,
}

/// The same scanner at five places of the program, since where a loop happens to stand changes its time by a fifth.
pub const SCANNERS: [fn(&[u8]) -> Scanned; 5] =
    [scan::<0>, scan::<3>, scan::<5>, scan::<9>, scan::<14>];

/// Reads the metadata. `SHIFT` moves the loops by a few instructions and does nothing else.
#[inline(never)]
fn scan<const SHIFT: usize>(bytes: &[u8]) -> Scanned {
    for k in 0..SHIFT {
        black_box(k);
    }
    read(bytes).unwrap_or(Scanned::Spoilt)
}

#[inline(always)]
fn read(bytes: &[u8]) -> Option<Scanned> {
    let mut open: [&[u8]; MOST_OPEN] = [b""; MOST_OPEN];
    let mut count = 0;
    // So many of the open names, from the outermost on, are the section's.
    let mut matched = 0;
    // Behind the last start tag.
    let mut behind = 0;
    let mut declares = false;
    let mut at = 0;
    while at < bytes.len() {
        if bytes[at] != b'<' {
            at += 1;
            continue;
        }
        match *bytes.get(at + 1)? {
            b'/' => {
                let end = name_end(bytes, at + 2)?;
                let name = &bytes[at + 2..end];
                if count == 0 || open[count - 1] != name {
                    return None;
                }
                if matched == 3 && count == 3 && bytes[behind..at] == *b"CHUNKCONTAINER" {
                    declares = true;
                }
                count -= 1;
                matched = matched.min(count);
                at = end;
                while is_white(*bytes.get(at)?) {
                    at += 1;
                }
                if bytes[at] != b'>' {
                    return None;
                }
                at += 1;
            }
            b'?' => at = skip(bytes, at + 2, b"?>")?,
            b'!' => {
                let rest = &bytes[at..];
                if rest.starts_with(b"<!--") {
                    at = skip(bytes, at + 4, b"-->")?;
                } else if rest.starts_with(b"<![CDATA[") {
                    at = skip(bytes, at + 9, b"]]>")?;
                } else {
                    return None;
                }
            }
            _ => {
                let end = name_end(bytes, at + 1)?;
                let name = &bytes[at + 1..end];
                at = tag_end(bytes, end)?;
                if bytes[at - 2] == b'/' {
                    continue;
                }
                if count == MOST_OPEN {
                    return None;
                }
                if matched == count && count < 3 && name == SECTION[count] {
                    matched += 1;
                }
                open[count] = name;
                count += 1;
                behind = at;
            }
        }
    }
    match (count, declares) {
        (0, true) => Some(Scanned::Container),
        (0, false) => Some(Scanned::Plain),
        _ => None,
    }
}

/// Where a name that begins there ends; it is not empty, does not begin with `!` and has no `<`.
#[inline(always)]
fn name_end(bytes: &[u8], start: usize) -> Option<usize> {
    let mut at = start;
    loop {
        let byte = *bytes.get(at)?;
        if byte == b'<' {
            return None;
        }
        if is_white(byte) || byte == b'/' || byte == b'>' {
            break;
        }
        at += 1;
    }
    (at > start && bytes[start] != b'!').then_some(at)
}

/// Behind the first `>` outside quotes; `<` stands in quotes alone.
#[inline(always)]
fn tag_end(bytes: &[u8], mut at: usize) -> Option<usize> {
    loop {
        let byte = *bytes.get(at)?;
        at += 1;
        match byte {
            b'>' => return Some(at),
            b'<' => return None,
            b'"' | b'\'' => {
                while *bytes.get(at)? != byte {
                    at += 1;
                }
                at += 1;
            }
            _ => {}
        }
    }
}

/// Behind the first closer from there on.
#[inline(always)]
fn skip(bytes: &[u8], mut at: usize, closer: &[u8]) -> Option<usize> {
    while at + closer.len() <= bytes.len() {
        if bytes[at..].starts_with(closer) {
            return Some(at + closer.len());
        }
        at += 1;
    }
    None
}

#[inline(always)]
fn is_white(byte: u8) -> bool {
    matches!(byte, 9 | 10 | 13 | 32)
}

#[cfg(test)]
mod tests {
    use super::{Scanned, SCANNERS};
    use generate::{draw_tokens, Metadata, Random};
    use reference::declares_container;

    #[test]
    fn it_reads_what_the_reference_reads() {
        let random = &mut Random::new(7);
        for _ in 0..20_000 {
            for bytes in [
                Metadata::declaring(random).bytes,
                Metadata::other(random).bytes,
                draw_tokens(random),
            ] {
                let is_container = SCANNERS[0](&bytes) == Scanned::Container;
                let shown = bytes.escape_ascii();
                assert_eq!(is_container, declares_container(&bytes), "{shown}");
            }
        }
        for scan in SCANNERS {
            assert_eq!(scan(b""), Scanned::Plain);
            assert_eq!(scan(b"<"), Scanned::Spoilt);
            assert_eq!(scan(generate::SECTION), Scanned::Container);
        }
    }
}
