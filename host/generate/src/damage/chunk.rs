//! Rows 17 and 18: chunks and masks.

use super::order::Step;
use super::{Clause, Damage, Order};
use crate::format::{MASK_GUID, SECTION};
use crate::random::Random;
use crate::sound::{EntryPlace, Sound};
use crate::tile::{Chunk, MaskShape};

pub(super) const CLAUSES: &[Clause] = &[
    Clause::new(
        "17: a container of fewer than 20 bytes",
        17,
        short_container,
    ),
    Clause::new("17: fewer than 20 bytes behind a chunk", 17, short_rest),
    Clause::new("17: a chunk's size negative", 17, size_negative),
    Clause::new("17: a payload past the attachment's end", 17, payload_over),
    Clause::new(
        "17: the attachment ends within a payload",
        17,
        attachment_cut,
    ),
    Clause::new(
        "17: the last chunk ends before the attachment",
        17,
        chunk_short,
    ),
    Clause::new(
        "17: plain bytes that other metadata declare a container",
        17,
        declared,
    ),
    Clause::new("18: a mask's payload under 16", 18, payload_short),
    Clause::new("18: width negative", 18, width_negative),
    Clause::new("18: height negative", 18, height_negative),
    Clause::new("18: representation not 0", 18, representation),
    Clause::new("18: stride negative", 18, stride_negative),
    Clause::new("18: stride × 8 under width", 18, stride_short),
    Clause::new("18: lines past the payload", 18, lines_over),
    Clause::new("18: a payload cut within the lines", 18, payload_cut),
    Clause::new("18: lines fit modulo 2^32 only", 18, lines_wrap),
    Clause::new("18: a second mask", 18, second_mask),
];

/// A chunk in the file, of a sub-block that no earlier entry lists.
#[derive(Clone, Copy)]
struct Found<'a> {
    index: usize,
    entry: &'a EntryPlace,
    number: usize,
    chunk: &'a Chunk,
    /// Its offset in the attachment.
    offset: usize,
    /// Its place in the file.
    place: usize,
    is_last: bool,
}

impl Found<'_> {
    fn size_at(&self) -> usize {
        self.place + 16
    }

    fn payload_at(&self) -> usize {
        self.place + 20
    }

    fn size(&self) -> usize {
        self.chunk.payload.len()
    }

    /// The offset of its end in the attachment.
    fn end(&self) -> usize {
        self.offset + 20 + self.size()
    }

    /// 17 here.
    fn refused(&self) -> Damage {
        let order = Order::entry(self.index, Step::Chunk(self.number));
        Damage::new(self.place, order).moving(self.entry.segment)
    }

    /// 18 here.
    fn refused_as_mask(&self) -> Damage {
        let order = Order::entry(self.index, Step::Mask(self.number));
        Damage::new(self.place, order)
    }

    /// 17 where the next chunk begins, this one having that payload length.
    fn refused_behind(&self, size: usize) -> Damage {
        let order = Order::entry(self.index, Step::Chunk(self.number + 1));
        Damage::new(self.place + 20 + size, order).moving(self.entry.segment)
    }
}

/// Entries with a container that no earlier entry shares.
fn containers(sound: &Sound) -> impl Iterator<Item = (usize, &EntryPlace, &[Chunk])> {
    let firsts = sound.entries.iter().enumerate().filter(|(_, e)| e.first);
    firsts.filter_map(|(index, e)| sound.tile(e).chunks().map(|chunks| (index, e, chunks)))
}

/// Some chunk that passes the test.
fn choose<'a>(
    sound: &'a Sound,
    random: &mut Random,
    test: impl Fn(&Found) -> bool,
) -> Option<Found<'a>> {
    let mut all = Vec::new();
    for (index, entry, chunks) in containers(sound) {
        let mut offset = 0;
        for (number, chunk) in chunks.iter().enumerate() {
            let found = Found {
                index,
                entry,
                number,
                chunk,
                offset,
                place: sound.attachment_at(entry) + offset,
                is_last: number + 1 == chunks.len(),
            };
            offset = found.end();
            if test(&found) {
                all.push(found);
            }
        }
    }
    random.pick_from(all)
}

/// Some mask that passes the test, with its shape.
fn choose_mask<'a>(
    sound: &'a Sound,
    random: &mut Random,
    test: impl Fn(&Found, MaskShape) -> bool,
) -> Option<(Found<'a>, MaskShape)> {
    let shape = |f: &Found| f.chunk.shape.filter(|_| f.chunk.is_mask());
    let found = choose(sound, random, |f| shape(f).is_some_and(|s| test(f, s)))?;
    Some((found, found.chunk.shape?))
}

/// The most bytes that an entry's attachment can have in the room.
fn most(sound: &Sound, entry: &EntryPlace) -> usize {
    let segment = sound.sub_block(entry);
    segment.content() + segment.room() - sound.attachment_at(entry)
}

fn attachment_size_at(sound: &Sound, entry: &EntryPlace) -> usize {
    sound.sub_block(entry).content() + 4
}

fn short_container(sound: &Sound, random: &mut Random) -> Option<Damage> {
    let fitting = containers(sound).filter(|(_, e, _)| most(sound, e) > 0);
    let (index, entry, _) = random.pick_from(fitting.collect())?;
    let size = random.pick(&[1, 16, 19]).min(most(sound, entry) as i32);
    let order = Order::entry(index, Step::Chunk(0));
    let damage = Damage::new(sound.attachment_at(entry), order).moving(entry.segment);
    Some(damage.int(attachment_size_at(sound, entry), size))
}

/// Plain bytes too few for a chunk, and metadata of the same length with the section.
fn declared(sound: &Sound, random: &mut Random) -> Option<Damage> {
    let firsts = sound.entries.iter().enumerate().filter(|(_, e)| e.first);
    let fitting = firsts.filter(|(_, e)| {
        let tile = sound.tile(e);
        tile.chunks().is_none()
            && (1..20).contains(&tile.attachment().len())
            && tile.metadata.bytes.len() >= SECTION.len()
    });
    let (index, entry) = random.pick_from(fitting.collect())?;
    let spare = sound.tile(entry).metadata.bytes.len() - SECTION.len();
    let before = random.below(spare + 1);
    let white = |count| vec![b' '; count];
    let metadata = [&white(before), SECTION, &white(spare - before)].concat();
    let order = Order::entry(index, Step::Chunk(0));
    let damage = Damage::new(sound.attachment_at(entry), order).moving(entry.segment);
    Some(damage.write(sound.metadata_at(entry), &metadata))
}

fn short_rest(sound: &Sound, random: &mut Random) -> Option<Damage> {
    let fits = |f: &Found| most(sound, f.entry) > f.end();
    let found = choose(sound, random, fits)?;
    let left = random
        .pick(&[1, 16, 19])
        .min(most(sound, found.entry) - found.end());
    let size = (found.end() + left) as i32;
    let damage = found.refused_behind(found.size());
    Some(damage.int(attachment_size_at(sound, found.entry), size))
}

fn size_negative(sound: &Sound, random: &mut Random) -> Option<Damage> {
    let found = choose(sound, random, |_| true)?;
    let high = found.size() as i32 | i32::MIN;
    let size = random.pick(&[-1, -20, i32::MIN, high]);
    Some(found.refused().int(found.size_at(), size))
}

fn payload_over(sound: &Sound, random: &mut Random) -> Option<Damage> {
    let found = choose(sound, random, |_| true)?;
    let attachment = sound.tile(found.entry).attachment().len();
    let left = (attachment - found.offset - 20) as i32;
    let size = random.pick(&[left + 1, left + 1, left + 20, i32::MAX]);
    Some(found.refused().int(found.size_at(), size))
}

fn attachment_cut(sound: &Sound, random: &mut Random) -> Option<Damage> {
    let found = choose(sound, random, |f| f.size() > 0)?;
    let cut = random.below(found.size());
    let held = random.pick(&[0, cut, found.size() - 1]);
    let size = (found.offset + 20 + held) as i32;
    Some(
        found
            .refused()
            .int(attachment_size_at(sound, found.entry), size),
    )
}

/// Fewer than 20 bytes are left where one more chunk would begin.
fn chunk_short(sound: &Sound, random: &mut Random) -> Option<Damage> {
    let least = |f: &Found| match f.chunk.shape {
        Some(shape) if f.chunk.is_mask() => 16 + shape.stride as usize * shape.height as usize,
        _ => 0,
    };
    let found = choose(sound, random, |f| f.is_last && f.size() > least(f))?;
    let most = (found.size() - least(&found)).min(19);
    let size = found.size() - 1 - random.below(most);
    Some(found.refused_behind(size).int(found.size_at(), size as i32))
}

fn payload_short(sound: &Sound, random: &mut Random) -> Option<Damage> {
    let (found, _) = choose_mask(sound, random, |_, _| true)?;
    let size = random.pick(&[0, 1, 12, 15]);
    let damage = found.refused_as_mask().moving(found.entry.segment);
    Some(damage.int(found.size_at(), size))
}

fn negative(sound: &Sound, random: &mut Random, field: usize) -> Option<Damage> {
    let (found, _) = choose_mask(sound, random, |_, _| true)?;
    let value = random.pick(&[-1, -8, i32::MIN]);
    Some(
        found
            .refused_as_mask()
            .int(found.payload_at() + field, value),
    )
}

fn width_negative(sound: &Sound, random: &mut Random) -> Option<Damage> {
    negative(sound, random, 0)
}

fn height_negative(sound: &Sound, random: &mut Random) -> Option<Damage> {
    negative(sound, random, 4)
}

fn stride_negative(sound: &Sound, random: &mut Random) -> Option<Damage> {
    negative(sound, random, 12)
}

fn representation(sound: &Sound, random: &mut Random) -> Option<Damage> {
    let (found, _) = choose_mask(sound, random, |_, _| true)?;
    let value = random.not_zero();
    Some(found.refused_as_mask().int(found.payload_at() + 8, value))
}

/// The width is one pixel more than the stride holds, or the stride one byte too short.
fn stride_short(sound: &Sound, random: &mut Random) -> Option<Damage> {
    let (found, shape) = choose_mask(sound, random, |_, s| s.stride < 1 << 28)?;
    let damage = found.refused_as_mask();
    let at = found.payload_at();
    if shape.width > 0 && random.percent(50) {
        return Some(damage.int(at + 12, (shape.width - 1) / 8));
    }
    let held = shape.stride * 8;
    Some(damage.int(at, random.pick(&[held + 1, held + 9, i32::MAX])))
}

fn lines_over(sound: &Sound, random: &mut Random) -> Option<Damage> {
    let (found, shape) = choose_mask(sound, random, |_, s| s.stride > 0)?;
    let damage = found.refused_as_mask();
    let lines = found.size() as i32 - 16;
    if shape.height > 0 && random.percent(50) {
        let stride = lines / shape.height + 1;
        return Some(damage.int(found.payload_at() + 12, random.pick(&[stride, i32::MAX])));
    }
    let height = lines / shape.stride + 1;
    Some(damage.int(found.payload_at() + 4, random.pick(&[height, i32::MAX])))
}

fn payload_cut(sound: &Sound, random: &mut Random) -> Option<Damage> {
    let (found, shape) = choose_mask(sound, random, |_, s| s.stride > 0 && s.height > 0)?;
    let lines = shape.stride * shape.height;
    let held = random.below(lines as usize) as i32;
    let size = 16 + random.pick(&[lines - 1, held]);
    let damage = found.refused_as_mask().moving(found.entry.segment);
    Some(damage.int(found.size_at(), size))
}

/// 65,536 lines of 65,536 bytes are 2^32.
fn lines_wrap(sound: &Sound, random: &mut Random) -> Option<Damage> {
    let (found, _) = choose_mask(sound, random, |_, s| s.width <= 524_288)?;
    let at = found.payload_at();
    let damage = found.refused_as_mask();
    Some(damage.int(at + 4, 65_536).int(at + 12, 65_536))
}

/// Another chunk becomes a mask: the later of the two is refused.
fn second_mask(sound: &Sound, random: &mut Random) -> Option<Damage> {
    let (mask, _) = choose_mask(sound, random, |_, _| true)?;
    let other = choose(sound, random, |f| {
        let behind = f.number > mask.number;
        f.index == mask.index && !f.chunk.is_mask() && (behind || f.chunk.shape.is_some())
    })?;
    let later = if other.number > mask.number {
        &other
    } else {
        &mask
    };
    Some(later.refused_as_mask().write(other.place, &MASK_GUID))
}
