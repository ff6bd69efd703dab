//! How a sound file is drawn: segments are planned, then laid and linked.

use crate::canvas::Canvas;
use crate::format::Kind;
use crate::random::Random;
use crate::segment::{arrange, Arranged, SegmentPlan};
use crate::sound::{AttachmentPlace, EntryPlace, MetadataPlace, Sound};
use crate::tile::Tile;

/// The numbers of planned segments that others name.
struct Draft {
    plans: Vec<SegmentPlan>,
    tiles: Vec<Tile>,
    /// By tile.
    sub_blocks: Vec<usize>,
    /// By entry, the tile.
    listed: Vec<usize>,
    directory: usize,
    metadata: Option<(usize, usize, usize)>,
    /// By planned attachment, its segment and its data's length.
    attachments: Vec<(usize, usize)>,
    /// By planned attachment, its entry.
    entries_a1: Vec<Vec<u8>>,
    /// By entry A1, the planned attachment.
    attached: Vec<usize>,
    attachment_directory: Option<usize>,
}

/// The sound file of that seed, a few KB long.
pub fn sound(seed: u64) -> Sound {
    let random = &mut Random::new(seed);
    let canvas = Canvas::draw(random);
    let count = random.pick(&[0, 1, 1, 2, 2, 3, 3, 4, 5, 6]);
    let tiles: Vec<Tile> = (0..count).map(|_| canvas.draw_tile(random)).collect();
    let mut draft = Draft {
        plans: vec![file_segment(random)],
        tiles,
        sub_blocks: Vec::new(),
        listed: Vec::new(),
        directory: 0,
        metadata: None,
        attachments: Vec::new(),
        entries_a1: Vec::new(),
        attached: Vec::new(),
        attachment_directory: None,
    };
    draft.add_sub_blocks(random);
    draft.add_directory(random);
    if random.percent(65) {
        draft.add_metadata(random);
    }
    if random.percent(65) {
        draft.add_attachments(random);
    }
    for _ in 0..random.pick(&[0, 0, 1, 1, 2, 3]) {
        draft.plans.push(unnamed(random));
    }
    draft.add_outdated(random);
    draft.name_from_the_file_segment();
    let arranged = arrange(&draft.plans, random);
    draft.finish(arranged)
}

/// The file segment: what is not judged is any byte.
fn file_segment(random: &mut Random) -> SegmentPlan {
    let mut content = if random.percent(70) {
        random.bytes(80)
    } else {
        vec![0; 80]
    };
    content[0..4].copy_from_slice(&1i32.to_le_bytes());
    content[48..52].fill(0);
    content[52..72].fill(0);
    content[72..80].fill(0);
    let mut plan = SegmentPlan::new(Kind::File, content);
    if random.percent(30) {
        // 512 in all, as microscopes write it.
        plan.tail = random.bytes(512 - 80);
    }
    plan
}

/// A segment that nothing names, with any content.
fn unnamed(random: &mut Random) -> SegmentPlan {
    let kind = if random.percent(40) {
        Kind::Deleted
    } else {
        random.pick(&Kind::ALL[1..])
    };
    let length = random.pick(&[0, 0, 1, 30, 100, 280]);
    SegmentPlan::new(kind, random.bytes(length))
}

/// Five bytes, spare in an entry.
fn spare(random: &mut Random) -> [u8; 5] {
    if random.percent(50) {
        [0; 5]
    } else {
        [0; 5].map(|_| random.word() as u8)
    }
}

impl Draft {
    fn push(&mut self, plan: SegmentPlan) -> usize {
        self.plans.push(plan);
        self.plans.len() - 1
    }

    /// One sub-block a tile.
    fn add_sub_blocks(&mut self, random: &mut Random) {
        for k in 0..self.tiles.len() {
            let filler = random.word() as u8;
            let content = self.tiles[k].encode_sub_block(spare(random), filler);
            let mut plan = SegmentPlan::new(Kind::SubBlock, content);
            plan.links.push((16 + 6, self.plans.len()));
            let number = self.push(plan);
            self.sub_blocks.push(number);
        }
    }

    /// The sub-block directory: most tiles once, some twice, in any order.
    fn add_directory(&mut self, random: &mut Random) {
        for k in 0..self.tiles.len() {
            for _ in 0..random.pick(&[1, 1, 1, 1, 1, 1, 1, 2, 2, 0]) {
                self.listed.push(k);
            }
        }
        random.shuffle(&mut self.listed);
        let mut plan = self.directory_of(&self.listed, random);
        if !self.tiles.is_empty() && random.percent(20) {
            // What stands behind the last entry looks like one more.
            plan.tail = self.tiles[0].encode_entry(spare(random));
        }
        self.directory = self.push(plan);
    }

    /// A sub-block directory that lists those tiles.
    fn directory_of(&self, listed: &[usize], random: &mut Random) -> SegmentPlan {
        let mut content = random.bytes(128);
        content[0..4].copy_from_slice(&(listed.len() as i32).to_le_bytes());
        let mut links = Vec::new();
        for &k in listed {
            links.push((content.len() + 6, self.sub_blocks[k]));
            content.extend(self.tiles[k].encode_entry(spare(random)));
        }
        let mut plan = SegmentPlan::new(Kind::Directory, content);
        plan.links = links;
        plan
    }

    /// The metadata segment.
    fn add_metadata(&mut self, random: &mut Random) {
        let (plan, xml_size, attachment_size) = metadata(random);
        let number = self.push(plan);
        self.metadata = Some((number, xml_size, attachment_size));
    }

    /// Attachments and their directory.
    fn add_attachments(&mut self, random: &mut Random) {
        for _ in 0..random.pick(&[0, 1, 1, 2, 3]) {
            let entry = entry_a1(random);
            let data_size = random.pick(&[0, 1, 20, 70]);
            let mut content = (data_size as i32).to_le_bytes().to_vec();
            content.extend(random.bytes(12));
            content.extend(&entry);
            content.extend(random.bytes(256 - content.len()));
            content.extend(random.bytes(data_size));
            let mut plan = SegmentPlan::new(Kind::Attachment, content);
            plan.links.push((16 + 12, self.plans.len()));
            let number = self.push(plan);
            for _ in 0..random.pick(&[1, 1, 1, 1, 2, 0]) {
                self.attached.push(self.attachments.len());
            }
            self.attachments.push((number, data_size));
            self.entries_a1.push(entry);
        }
        random.shuffle(&mut self.attached);
        let plan = self.attachment_directory_of(&self.attached, random);
        self.attachment_directory = Some(self.push(plan));
    }

    /// An attachment directory that lists those attachments.
    fn attachment_directory_of(&self, attached: &[usize], random: &mut Random) -> SegmentPlan {
        let mut content = random.bytes(256);
        content[0..4].copy_from_slice(&(attached.len() as i32).to_le_bytes());
        let mut links = Vec::new();
        for &k in attached {
            links.push((content.len() + 12, self.attachments[k].0));
            content.extend(&self.entries_a1[k]);
        }
        let mut plan = SegmentPlan::new(Kind::AttachmentDirectory, content);
        plan.links = links;
        plan
    }

    /// Segments that were in use once: sound, and nothing names them now.
    fn add_outdated(&mut self, random: &mut Random) {
        if random.percent(12) {
            let listed: Vec<usize> = (0..self.tiles.len()).rev().collect();
            let plan = self.directory_of(&listed, random);
            self.push(plan);
        }
        if random.percent(12) {
            self.push(metadata(random).0);
        }
        if random.percent(12) {
            let attached: Vec<usize> = (0..self.attachments.len()).rev().collect();
            let plan = self.attachment_directory_of(&attached, random);
            self.push(plan);
        }
        if !self.tiles.is_empty() && random.percent(12) {
            // A tile's sub-block a second time; its copy names itself.
            let tile = &self.tiles[random.below(self.tiles.len())];
            let content = tile.encode_sub_block(spare(random), random.word() as u8);
            let mut plan = SegmentPlan::new(Kind::SubBlock, content);
            plan.links.push((16 + 6, self.plans.len()));
            self.push(plan);
        }
    }

    fn name_from_the_file_segment(&mut self) {
        let directory = self.directory;
        let metadata = self.metadata.map(|m| m.0);
        let attachments = self.attachment_directory;
        let links = &mut self.plans[0].links;
        links.push((52, directory));
        links.extend(metadata.map(|number| (60, number)));
        links.extend(attachments.map(|number| (72, number)));
    }

    /// The sound file, its segments laid.
    fn finish(self, arranged: Arranged) -> Sound {
        let Arranged {
            bytes,
            places: segments,
            order,
        } = arranged;
        let mut entries = Vec::new();
        let directory = order[self.directory];
        let mut place = segments[directory].content() + 128;
        for (k, &tile) in self.listed.iter().enumerate() {
            entries.push(EntryPlace {
                place,
                tile,
                segment: order[self.sub_blocks[tile]],
                first: !self.listed[..k].contains(&tile),
            });
            place += self.tiles[tile].entry_length();
        }
        let attachment_directory = self.attachment_directory.map(|number| order[number]);
        let attachment = |(k, &planned): (usize, &usize)| {
            let (number, data_size) = self.attachments[planned];
            let directory = attachment_directory.expect("entries stand in a directory");
            AttachmentPlace {
                place: segments[directory].content() + 256 + 128 * k,
                segment: order[number],
                data_size,
                first: !self.attached[..k].contains(&planned),
            }
        };
        let metadata = self
            .metadata
            .map(|(number, xml, attachment)| MetadataPlace {
                segment: order[number],
                xml_size: xml,
                attachment_size: attachment,
            });
        Sound {
            attachments: self.attached.iter().enumerate().map(attachment).collect(),
            bytes,
            segments,
            directory,
            tiles: self.tiles,
            entries,
            metadata,
            attachment_directory,
        }
    }
}

/// A metadata segment, and the lengths of the common XML and its attachment.
fn metadata(random: &mut Random) -> (SegmentPlan, usize, usize) {
    let xml_size = random.pick(&[0, 1, 17, 60]);
    let attachment_size = random.pick(&[0, 0, 1, 40]);
    let mut content = random.bytes(256);
    content[0..4].copy_from_slice(&(xml_size as i32).to_le_bytes());
    content[4..8].copy_from_slice(&(attachment_size as i32).to_le_bytes());
    content.extend(random.bytes(xml_size + attachment_size));
    let plan = SegmentPlan::new(Kind::Metadata, content);
    (plan, xml_size, attachment_size)
}

/// An entry A1, its FilePosition still 0.
fn entry_a1(random: &mut Random) -> Vec<u8> {
    let mut entry = random.bytes(128);
    entry[..2].copy_from_slice(b"A1");
    entry[12..24].fill(0);
    // A name that ends at the first zero byte: empty, short or as long as can be.
    for byte in &mut entry[48..] {
        *byte |= 1;
    }
    let zero = random.pick(&[0, 5, 40, 79]);
    entry[48 + zero] = 0;
    entry
}
