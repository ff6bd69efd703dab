//! Rows 15 and 16 for a sub-block.

use super::order::Step;
use super::{Clause, Damage, Order};
use crate::format::Kind;
use crate::random::Random;
use crate::sound::{EntryPlace, Sound};

pub(super) const CLAUSES: &[Clause] = &[
    Clause::new(
        "15: a sub-block's fixed part doesn't fit the room",
        15,
        fixed_part,
    ),
    Clause::new(
        "15: a fixed part above 256 doesn't fit the room",
        15,
        long_fixed_part,
    ),
    Clause::new("15: a sub-block's copy differs", 15, copy),
    Clause::new("15: a sub-block's copy differs in byte 22", 15, copy_22),
    Clause::new("15: a sub-block's copy differs in byte 28", 15, copy_28),
    Clause::new(
        "15: a sub-block's copy differs in its last byte",
        15,
        copy_last,
    ),
    Clause::new(
        "15: an entry differs from its sub-block's copy",
        15,
        entry_differs,
    ),
    Clause::new("15: an entry names another sub-block", 15, other_sub_block),
    Clause::new("16: MetadataSize negative", 16, metadata_negative),
    Clause::new("16: AttachmentSize negative", 16, attachment_negative),
    Clause::new("16: DataSize negative", 16, data_negative),
    Clause::new("16: a sub-block's sizes don't fit its room", 16, room_short),
    Clause::new("16: MetadataSize doesn't fit", 16, metadata_over),
    Clause::new("16: AttachmentSize doesn't fit", 16, attachment_over),
    Clause::new("16: sizes fit modulo 2^32 only", 16, sizes_wrap),
    Clause::new("16: DataSize wrong", 16, data_wrong),
    Clause::new("16: DataSize right modulo 2^32 only", 16, data_wraps_32),
    Clause::new("16: DataSize right modulo 2^64 only", 16, data_wraps_64),
    Clause::new("16: X and Y Size near 2^31 with type 11", 16, large_sides),
    Clause::new("16: DataSize of one layer alone", 16, data_of_one),
    Clause::new("16: DataSize of a layer too few", 16, data_of_fewer),
    Clause::new(
        "16: DataSize of a layer too many, which fits the room",
        16,
        data_of_more,
    ),
    Clause::new(
        "16: DataSize with layers right modulo 2^32 only",
        16,
        layers_wrap_32,
    ),
    Clause::new(
        "16: DataSize with layers right modulo 2^64 only",
        16,
        layers_wrap_64,
    ),
    Clause::new(
        "16: X and Y Size near 2^31, 1,024 layers, type 11",
        16,
        large_layers,
    ),
];

/// An entry that no earlier one shares its sub-block with, and damage there.
struct Chosen<'a> {
    sound: &'a Sound,
    index: usize,
    entry: &'a EntryPlace,
    content: usize,
}

impl Chosen<'_> {
    fn damage(&self, step: Step) -> Damage {
        let position = self.sound.sub_block(self.entry).position;
        Damage::new(position, Order::entry(self.index, step))
    }

    /// The room that is left behind the attachment.
    fn slack(&self) -> i64 {
        let segment = self.sound.sub_block(self.entry);
        (segment.room() - segment.needed) as i64
    }

    /// 16, by moving the end of a part.
    fn moving(&self) -> Damage {
        self.damage(Step::Sizes).moving(self.entry.segment)
    }

    fn used_at(&self) -> usize {
        self.sound.sub_block(self.entry).position + 24
    }
}

fn choose<'a>(
    sound: &'a Sound,
    random: &mut Random,
    test: impl Fn(&Chosen) -> bool,
) -> Option<Chosen<'a>> {
    let chosen = |(index, entry): (usize, &'a EntryPlace)| Chosen {
        sound,
        index,
        entry,
        content: sound.sub_block(entry).content(),
    };
    let firsts = sound.entries.iter().enumerate().filter(|(_, e)| e.first);
    random.pick_from(firsts.map(chosen).filter(|c| test(c)).collect())
}

fn fixed_part(sound: &Sound, random: &mut Random) -> Option<Damage> {
    let chosen = choose(sound, random, |_| true)?;
    let fixed = sound.tile(chosen.entry).fixed_part() as i64;
    let used = random.pick(&[1, 15, 16, 200, fixed - 1]);
    Some(chosen.damage(Step::Copy).long(chosen.used_at(), used))
}

fn long_fixed_part(sound: &Sound, random: &mut Random) -> Option<Damage> {
    let is_long = |c: &Chosen| sound.tile(c.entry).fixed_part() > 256;
    let chosen = choose(sound, random, is_long)?;
    let fixed = sound.tile(chosen.entry).fixed_part() as i64;
    let used = random.between(256, fixed - 1);
    Some(chosen.damage(Step::Copy).long(chosen.used_at(), used))
}

/// Another byte at that offset of the copy.
fn copy_byte(sound: &Sound, random: &mut Random, chosen: &Chosen, offset: usize) -> Damage {
    let at = chosen.content + 16 + offset;
    let change = 1 << random.below(8);
    let damage = chosen.damage(Step::Copy);
    damage.write(at, &[sound.bytes[at] ^ change])
}

fn copy(sound: &Sound, random: &mut Random) -> Option<Damage> {
    let chosen = choose(sound, random, |_| true)?;
    let length = sound.tile(chosen.entry).entry_length();
    let judged = (0..length).filter(|offset| !(23..=27).contains(offset));
    let offset = random.pick_from(judged.collect())?;
    Some(copy_byte(sound, random, &chosen, offset))
}

fn copy_22(sound: &Sound, random: &mut Random) -> Option<Damage> {
    let chosen = choose(sound, random, |_| true)?;
    Some(copy_byte(sound, random, &chosen, 22))
}

fn copy_28(sound: &Sound, random: &mut Random) -> Option<Damage> {
    let chosen = choose(sound, random, |_| true)?;
    Some(copy_byte(sound, random, &chosen, 28))
}

fn copy_last(sound: &Sound, random: &mut Random) -> Option<Damage> {
    let chosen = choose(sound, random, |_| true)?;
    let length = sound.tile(chosen.entry).entry_length();
    Some(copy_byte(sound, random, &chosen, length - 1))
}

/// The entry's pyramid byte or a StartCoordinate, neither of them judged.
fn entry_differs(sound: &Sound, random: &mut Random) -> Option<Damage> {
    let index = random.pick_from((0..sound.entries.len()).collect())?;
    let entry = &sound.entries[index];
    let dimension = random.below(sound.tile(entry).dimensions.len());
    let coordinate = 32 + 20 * dimension + 12 + random.below(4);
    let at = entry.place + random.pick(&[22, coordinate]);
    let position = sound.sub_block(entry).position;
    let damage = Damage::new(position, Order::entry(index, Step::Copy));
    let change = 1 << random.below(8);
    // The same change to the copy would undo this one.
    Some(damage.write(at, &[sound.bytes[at] ^ change]).alone())
}

fn other_sub_block(sound: &Sound, random: &mut Random) -> Option<Damage> {
    let index = random.pick_from((0..sound.entries.len()).collect())?;
    let entry = &sound.entries[index];
    let tile = sound.tile(entry);
    let mut listed = sound.bytes[entry.place..][..tile.entry_length()].to_vec();
    let mut others = Vec::new();
    for segment in &sound.segments {
        listed[6..14].copy_from_slice(&(segment.position as i64).to_le_bytes());
        let is_other = || {
            let copy = &sound.bytes[segment.content() + 16..][..listed.len()];
            copy[..23] != listed[..23] || copy[28..] != listed[28..]
        };
        if segment.kind == Kind::SubBlock && (segment.room() < tile.fixed_part() || is_other()) {
            others.push(segment.position);
        }
    }
    let position = random.pick_from(others)?;
    let damage = Damage::new(position, Order::entry(index, Step::Copy));
    // Damage to the other sub-block would meet this entry too.
    Some(damage.long(entry.place + 6, position as i64).alone())
}

fn metadata_negative(sound: &Sound, random: &mut Random) -> Option<Damage> {
    let chosen = choose(sound, random, |_| true)?;
    let right = sound.tile(chosen.entry).metadata.bytes.len() as i32;
    let size = random.pick(&[-1, i32::MIN, right | i32::MIN]);
    Some(chosen.damage(Step::Sizes).int(chosen.content, size))
}

fn attachment_negative(sound: &Sound, random: &mut Random) -> Option<Damage> {
    let chosen = choose(sound, random, |_| true)?;
    let right = sound.tile(chosen.entry).attachment().len() as i32;
    let size = random.pick(&[-1, i32::MIN, right | i32::MIN]);
    Some(chosen.damage(Step::Sizes).int(chosen.content + 4, size))
}

fn data_negative(sound: &Sound, random: &mut Random) -> Option<Damage> {
    let chosen = choose(sound, random, |_| true)?;
    let right = sound.tile(chosen.entry).pixels.len() as i64;
    let size = random.pick(&[-1, -right, i64::MIN, right | i64::MIN]);
    Some(chosen.damage(Step::Sizes).long(chosen.content + 8, size))
}

/// The room ends behind the fixed part and before the attachment's end.
fn room_short(sound: &Sound, random: &mut Random) -> Option<Damage> {
    let chosen = choose(sound, random, |_| true)?;
    let fixed = sound.tile(chosen.entry).fixed_part() as i64;
    let needed = sound.sub_block(chosen.entry).needed as i64;
    let any = random.between(fixed, needed - 1);
    let used = random.pick(&[needed - 1, fixed, any]);
    Some(chosen.moving().long(chosen.used_at(), used))
}

/// A size that is `right` and over the room by at least one byte.
fn over(random: &mut Random, right: usize, slack: i64) -> i32 {
    let least = (right as i64 + slack + 1) as i32;
    random.pick(&[least, least, least + 31, i32::MAX])
}

fn metadata_over(sound: &Sound, random: &mut Random) -> Option<Damage> {
    let chosen = choose(sound, random, |_| true)?;
    let right = sound.tile(chosen.entry).metadata.bytes.len();
    let size = over(random, right, chosen.slack());
    Some(chosen.moving().int(chosen.content, size))
}

fn attachment_over(sound: &Sound, random: &mut Random) -> Option<Damage> {
    let chosen = choose(sound, random, |_| true)?;
    let right = sound.tile(chosen.entry).attachment().len();
    let size = over(random, right, chosen.slack());
    Some(chosen.moving().int(chosen.content + 4, size))
}

/// Their sum in 32 bits is the right one less 2.
fn sizes_wrap(sound: &Sound, random: &mut Random) -> Option<Damage> {
    let chosen = choose(sound, random, |_| true)?;
    let damage = chosen.damage(Step::Sizes);
    let content = chosen.content;
    Some(damage.int(content, i32::MAX).int(content + 4, i32::MAX))
}

fn data_wrong(sound: &Sound, random: &mut Random) -> Option<Damage> {
    let chosen = choose(sound, random, |_| true)?;
    let right = sound.tile(chosen.entry).pixels.len() as i64;
    let wide = right + (1 << 32);
    let size = random.pick(&[right - 1, right + 1, 0, wide, i64::MAX]);
    Some(chosen.damage(Step::Sizes).long(chosen.content + 8, size))
}

/// The entry and its copy get a type and sides; 0 leaves a side to its Size.
fn with_sides(sound: &Sound, chosen: &Chosen, pixel_type: i32, x: i32, y: i32) -> Damage {
    let mut damage = chosen.damage(Step::Sizes);
    for at in [chosen.entry.place, chosen.content + 16] {
        damage = damage.int(at + 2, pixel_type);
        for (k, d) in sound.tile(chosen.entry).dimensions.iter().enumerate() {
            let stored_at = at + 32 + 20 * k + 16;
            match d.letter {
                b'X' => damage = damage.int(stored_at, x),
                b'Y' => damage = damage.int(stored_at, y),
                _ => {}
            }
        }
    }
    damage
}

/// 641 × 6,700,417 = 2^32 + 1, of each layer.
fn data_wraps_32(sound: &Sound, random: &mut Random) -> Option<Damage> {
    let chosen = choose(sound, random, |_| true)?;
    let damage = with_sides(sound, &chosen, 0, 641, 6_700_417);
    let layers = sound.tile(chosen.entry).layers() as i64;
    Some(damage.long(chosen.content + 8, layers))
}

/// 24 × 421,221,772 × 1,824,726,041 = 2^64 + 32, of each layer.
fn data_wraps_64(sound: &Sound, random: &mut Random) -> Option<Damage> {
    let of_layers = |c: &Chosen| 32 * sound.tile(c.entry).layers() as i64;
    let holds = |c: &Chosen| sound.tile(c.entry).pixels.len() as i64 + c.slack() >= of_layers(c);
    let chosen = choose(sound, random, holds)?;
    let damage = with_sides(sound, &chosen, 11, 421_221_772, 1_824_726_041);
    Some(damage.long(chosen.content + 8, of_layers(&chosen)))
}

fn large_sides(sound: &Sound, random: &mut Random) -> Option<Damage> {
    let chosen = choose(sound, random, |_| true)?;
    let mut damage = with_sides(sound, &chosen, 11, 0, 0);
    let size = random.pick(&[i32::MAX, i32::MAX - 1, 1 << 30]);
    for at in [chosen.entry.place, chosen.content + 16] {
        for (k, d) in sound.tile(chosen.entry).dimensions.iter().enumerate() {
            if b"XY".contains(&d.letter) {
                let start_at = at + 32 + 20 * k + 4;
                damage = damage.int(start_at, d.start.min(0)).int(start_at + 4, size);
            }
        }
    }
    Some(damage)
}

/// An entry whose tile has layers.
fn choose_layered<'a>(sound: &'a Sound, random: &mut Random) -> Option<Chosen<'a>> {
    choose(sound, random, |c| sound.tile(c.entry).layered().is_some())
}

fn data_of_one(sound: &Sound, random: &mut Random) -> Option<Damage> {
    let chosen = choose_layered(sound, random)?;
    let one = sound.tile(chosen.entry).layer(0).len() as i64;
    Some(chosen.damage(Step::Sizes).long(chosen.content + 8, one))
}

fn data_of_fewer(sound: &Sound, random: &mut Random) -> Option<Damage> {
    let chosen = choose_layered(sound, random)?;
    let tile = sound.tile(chosen.entry);
    let size = (tile.pixels.len() - tile.layer(0).len()) as i64;
    Some(chosen.damage(Step::Sizes).long(chosen.content + 8, size))
}

/// What stands behind the pixels is one layer more: slack, and bytes of the attachment.
fn data_of_more(sound: &Sound, random: &mut Random) -> Option<Damage> {
    let chosen = choose(sound, random, |c| {
        let tile = sound.tile(c.entry);
        let behind = tile.attachment().len() as i64 + c.slack();
        tile.layered().is_some() && behind >= tile.layer(0).len() as i64
    })?;
    let tile = sound.tile(chosen.entry);
    let (one, attached) = (tile.layer(0).len(), tile.attachment().len());
    let damage = chosen.moving();
    let damage = damage.int(chosen.content + 4, attached.saturating_sub(one) as i32);
    let size = (tile.pixels.len() + one) as i64;
    Some(damage.long(chosen.content + 8, size))
}

/// The entry and its copy get so many layers too.
fn with_layers(sound: &Sound, chosen: &Chosen, damage: Damage, layers: i32) -> Damage {
    let mut damage = damage;
    for at in [chosen.entry.place, chosen.content + 16] {
        for (k, d) in sound.tile(chosen.entry).dimensions.iter().enumerate() {
            if !b"XY".contains(&d.letter) && d.size > 1 {
                let start_at = at + 32 + 20 * k + 4;
                damage = damage.int(start_at, d.start.min(0));
                damage = damage.int(start_at + 4, layers).int(start_at + 12, 0);
            }
        }
    }
    damage
}

/// 2 × 715,827,883 × 3 = 2^32 + 2, and 2^12 × 2^16 × 16 = 2^32: without the layers it is
/// less.
fn layers_wrap_32(sound: &Sound, random: &mut Random) -> Option<Damage> {
    let chosen = choose_layered(sound, random)?;
    let known = [(2, 715_827_883, 3, 2), (1 << 12, 1 << 16, 16, 0)];
    let (x, y, layers, size) = random.pick(&known);
    let damage = with_sides(sound, &chosen, 0, x, y);
    let damage = with_layers(sound, &chosen, damage, layers);
    Some(damage.long(chosen.content + 8, size))
}

/// 2,147,418,113 × 1,718,039,348 × 5 = 2^64 + 4, and 2^30 × 2^30 × 16 = 2^64: without the
/// layers it is less. 2^30 × 2^30 × 1,024 × 24 is a multiple of 2^64 too.
fn layers_wrap_64(sound: &Sound, random: &mut Random) -> Option<Damage> {
    let chosen = choose_layered(sound, random)?;
    let held = sound.tile(chosen.entry).pixels.len() as i64 + chosen.slack();
    let known = [
        (0, 2_147_418_113, 1_718_039_348, 5, 4),
        (0, 1 << 30, 1 << 30, 16, 0),
        (11, 1 << 30, 1 << 30, 1_024, 0),
    ];
    let fitting = known.into_iter().filter(|k| k.4 <= held);
    let (pixel_type, x, y, layers, size) = random.pick_from(fitting.collect())?;
    let damage = with_sides(sound, &chosen, pixel_type, x, y);
    let damage = with_layers(sound, &chosen, damage, layers);
    Some(damage.long(chosen.content + 8, size))
}

fn large_layers(sound: &Sound, random: &mut Random) -> Option<Damage> {
    let chosen = choose_layered(sound, random)?;
    let side = random.pick(&[i32::MAX, i32::MAX - 1, 1 << 30]);
    let damage = with_sides(sound, &chosen, 11, side, side);
    let damage = with_layers(sound, &chosen, damage, crate::MOST_LAYERS);
    // As many bytes as there are, or as the product has in 64 bits.
    let product = (i64::from(side) * i64::from(side)).wrapping_mul(24 * 1_024);
    let right = sound.tile(chosen.entry).pixels.len() as i64;
    let size = random.pick(&[right, product]);
    Some(damage.long(chosen.content + 8, size))
}
