//! The clean file of a sound one, by paper 02, Req 04: laid from the plan, then linked.

use crate::format::Kind;
use crate::segment::{SegmentPlan, HEADER};
use crate::sound::Sound;

impl Sound {
    /// The file without its dead segments, as a repack must write it.
    pub fn clean(&self) -> Vec<u8> {
        let mut plans = vec![self.clean_file_segment(), self.clean_directory()];
        // What the file segment names: a field and a segment's number.
        let mut names = vec![(52, 1)];
        for entry in &self.entries {
            let content = self.tile(entry).encode_sub_block([0; 5], 0);
            let mut plan = SegmentPlan::new(Kind::SubBlock, content);
            plan.links.push((16 + 6, plans.len()));
            plans.push(plan);
        }
        if let Some(place) = &self.metadata {
            names.push((60, plans.len()));
            let held = 256 + place.xml_size + place.attachment_size;
            let mut content = self.content(place.segment, held);
            content[8..256].fill(0);
            plans.push(SegmentPlan::new(Kind::Metadata, content));
        }
        if let Some(segment) = self.attachment_directory {
            names.push((72, plans.len()));
            let held = 256 + 128 * self.attachments.len();
            let mut content = self.content(segment, held);
            content[4..256].fill(0);
            let mut plan = SegmentPlan::new(Kind::AttachmentDirectory, content);
            for k in 0..self.attachments.len() {
                let at = 256 + 128 * k;
                plan.content[at + 2..at + 12].fill(0);
                plan.links.push((at + 12, plans.len() + 1 + k));
            }
            plans.push(plan);
        }
        for place in &self.attachments {
            let mut content = self.content(place.segment, 256 + place.data_size);
            content[4..16].fill(0);
            content[18..28].fill(0);
            content[144..256].fill(0);
            let mut plan = SegmentPlan::new(Kind::Attachment, content);
            plan.links.push((16 + 12, plans.len()));
            plans.push(plan);
        }
        plans[0].links = names;
        lay(&plans)
    }

    /// So many bytes of a segment's content.
    fn content(&self, segment: usize, length: usize) -> Vec<u8> {
        self.bytes[self.segments[segment].content()..][..length].to_vec()
    }

    /// Versions and GUIDs stay, and what names no segment is zero.
    fn clean_file_segment(&self) -> SegmentPlan {
        let mut content = self.content(0, 80);
        content[8..16].fill(0);
        content[48..].fill(0);
        content.resize(512, 0);
        SegmentPlan::new(Kind::File, content)
    }

    /// The entries, zero bytes where they are spare; their sub-blocks come next.
    fn clean_directory(&self) -> SegmentPlan {
        let mut content = (self.entries.len() as i32).to_le_bytes().to_vec();
        content.resize(128, 0);
        let mut plan = SegmentPlan::new(Kind::Directory, content);
        for (k, entry) in self.entries.iter().enumerate() {
            plan.links.push((plan.content.len() + 6, 2 + k));
            let entry = self.tile(entry).encode_entry([0; 5]);
            plan.content.extend(entry);
        }
        plan
    }
}

/// Lays the segments in their order, as tight as can be, and links them.
fn lay(plans: &[SegmentPlan]) -> Vec<u8> {
    let mut bytes = Vec::new();
    let mut positions = Vec::new();
    for plan in plans {
        positions.push(bytes.len());
        let allocated = 32 * plan.content.len().div_ceil(32);
        bytes.extend(plan.kind.name());
        bytes.extend((allocated as i64).to_le_bytes());
        bytes.extend((plan.content.len() as i64).to_le_bytes());
        bytes.extend(&plan.content);
        bytes.extend(vec![0; allocated - plan.content.len()]);
    }
    for (plan, position) in plans.iter().zip(&positions) {
        for &(offset, to) in &plan.links {
            let at = position + HEADER + offset;
            let named = positions[to] as i64;
            bytes[at..at + 8].copy_from_slice(&named.to_le_bytes());
        }
    }
    bytes
}
