//! Damage of any kind, with no refusal foretold: for two readers to agree on.

use crate::random::Random;
use crate::sound::Sound;

/// The sound file with one to four changes, most of them where fields are.
pub fn scramble(sound: &Sound, random: &mut Random) -> Vec<u8> {
    let mut bytes = sound.bytes.clone();
    for _ in 0..1 + random.below(4) {
        change(&mut bytes, sound, random);
    }
    bytes
}

fn change(bytes: &mut Vec<u8>, sound: &Sound, random: &mut Random) {
    if bytes.len() < 32 {
        return;
    }
    let at = place(bytes.len(), sound, random);
    match random.below(6) {
        0 => bytes[at] ^= 1 << random.below(8),
        1 => bytes[at] = random.pick(&[0, 1, 0x7F, 0x80, 0xFF]),
        2 => {
            let value = random.between(-40, 300) as i32;
            write(bytes, at, &value.to_le_bytes());
        }
        3 => {
            let segment = random.pick(&sound.segments);
            write(bytes, at, &(segment.position as i64).to_le_bytes());
        }
        4 => {
            let from = random.below(bytes.len());
            let length = 1 + random.below(40.min(bytes.len() - from));
            let moved = bytes[from..from + length].to_vec();
            write(bytes, at, &moved);
        }
        _ => {
            if random.percent(20) {
                let length = 32 * random.below(bytes.len() / 32 + 1);
                bytes.truncate(length);
            }
        }
    }
}

/// An offset, mostly in the first bytes of a segment, an entry, metadata or an attachment.
fn place(length: usize, sound: &Sound, random: &mut Random) -> usize {
    let segment = random.pick(&sound.segments);
    let mut near = vec![segment.position, segment.content()];
    for entry in &sound.entries {
        near.extend([entry.place, entry.place + 32, sound.attachment_at(entry)]);
        near.push(sound.metadata_at(entry));
    }
    near.extend(sound.attachments.iter().map(|a| a.place));
    let base = random.pick(&near);
    let offset = random.pick(&[16, 32, 80]);
    (base + random.below(offset)).min(length - 1)
}

/// Writes as much as the file holds.
fn write(bytes: &mut [u8], at: usize, value: &[u8]) {
    let length = value.len().min(bytes.len() - at);
    bytes[at..at + length].copy_from_slice(&value[..length]);
}
