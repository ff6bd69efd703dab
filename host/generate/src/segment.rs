//! Segments: planned by content, then laid one after the other.

use crate::format::Kind;
use crate::random::Random;

/// The length of a segment's header.
pub const HEADER: usize = 32;

/// A segment before it has a position.
#[derive(Clone, Debug)]
pub struct SegmentPlan {
    /// What it is.
    pub kind: Kind,
    /// The bytes that it must hold.
    pub content: Vec<u8>,
    /// Bytes that stand right behind the content, within the room.
    pub tail: Vec<u8>,
    /// Places in the content at which the position of another planned segment
    /// stands, with that segment's number in the plan.
    pub links: Vec<(usize, usize)>,
}

impl SegmentPlan {
    /// A segment with that content and nothing else.
    pub fn new(kind: Kind, content: Vec<u8>) -> SegmentPlan {
        SegmentPlan {
            kind,
            content,
            tail: Vec::new(),
            links: Vec::new(),
        }
    }
}

/// A segment in the file.
#[derive(Clone, Copy, Debug)]
pub struct SegmentPlace {
    /// What it is.
    pub kind: Kind,
    /// The offset of its header.
    pub position: usize,
    /// AllocatedSize.
    pub allocated: usize,
    /// UsedSize as written.
    pub used: usize,
    /// The length of the content that it must hold.
    pub needed: usize,
}

impl SegmentPlace {
    /// The offset of the content.
    pub fn content(&self) -> usize {
        self.position + HEADER
    }

    /// The room: UsedSize, or AllocatedSize where that is 0.
    pub fn room(&self) -> usize {
        if self.used == 0 {
            self.allocated
        } else {
            self.used
        }
    }

    /// The offset of the first byte after the segment.
    pub fn end(&self) -> usize {
        self.content() + self.allocated
    }
}

/// Segments laid into a file.
pub struct Arranged {
    /// The file.
    pub bytes: Vec<u8>,
    /// The segments in the file's order.
    pub places: Vec<SegmentPlace>,
    /// By number in the plan, the number in the file's order.
    pub order: Vec<usize>,
}

/// Lays the segments, the first one first and the others in any order.
pub fn arrange(plans: &[SegmentPlan], random: &mut Random) -> Arranged {
    let mut sequence: Vec<usize> = (0..plans.len()).collect();
    if random.percent(80) {
        random.shuffle(&mut sequence[1..]);
    }
    let mut bytes = Vec::new();
    let mut places = Vec::new();
    let mut order = vec![0; plans.len()];
    for (index, &number) in sequence.iter().enumerate() {
        order[number] = index;
        places.push(append(&mut bytes, &plans[number], random));
    }
    for (number, plan) in plans.iter().enumerate() {
        let content = places[order[number]].content();
        for &(offset, to) in &plan.links {
            let position = places[order[to]].position as i64;
            bytes[content + offset..][..8].copy_from_slice(&position.to_le_bytes());
        }
    }
    Arranged {
        bytes,
        places,
        order,
    }
}

/// Appends a segment with slack of any kind.
fn append(bytes: &mut Vec<u8>, plan: &SegmentPlan, random: &mut Random) -> SegmentPlace {
    let needed = plan.content.len();
    let slack = random.pick(&[0, 0, 0, 1, 8, 19, 33]);
    let held = needed + plan.tail.len() + slack;
    let whole = held.next_multiple_of(32);
    let (allocated, used) = match random.below(4) {
        0 => (whole, 0),
        1 => (whole + 32 * random.below(3), held),
        _ => (whole, held),
    };
    let place = SegmentPlace {
        kind: plan.kind,
        position: bytes.len(),
        allocated,
        used,
        needed,
    };
    bytes.extend(plan.kind.name());
    bytes.extend((allocated as i64).to_le_bytes());
    bytes.extend((used as i64).to_le_bytes());
    bytes.extend(&plan.content);
    bytes.extend(&plan.tail);
    let rest = place.end() - bytes.len();
    if random.percent(50) {
        bytes.extend(random.bytes(rest));
    } else {
        bytes.resize(place.end(), 0);
    }
    place
}
