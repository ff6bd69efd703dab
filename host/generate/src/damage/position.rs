//! Positions that name no segment, or one of another kind.

use crate::format::Kind;
use crate::random::Random;
use crate::sound::Sound;

/// A position at which no header stands.
pub fn no_header(sound: &Sound, random: &mut Random, right: usize) -> i64 {
    let length = sound.bytes.len();
    let segment = random.pick(&sound.segments);
    let inside = segment.position + 1 + random.below(31);
    let past = length + 32 * random.below(4);
    let right = right as i64;
    random.pick(&[
        inside as i64,
        right + 1,
        past as i64,
        // The low half alone is right.
        right + (1 << 32),
        right | i64::MIN,
        -32,
        i64::MIN,
        i64::MAX,
    ])
}

/// The position of a segment of another kind, but not 0.
pub fn other_kind(sound: &Sound, random: &mut Random, kind: Kind) -> Option<i64> {
    let others = sound.segments[1..].iter().filter(|s| s.kind != kind);
    random.pick_from(others.map(|s| s.position as i64).collect())
}
