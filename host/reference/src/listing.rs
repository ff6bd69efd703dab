//! The summary of a file and the listing's text: refusal 30.

use crate::judge::{judge, File};
use crate::refusal::Refusal;
use crate::release::Release;
use crate::tile::Tile;

/// The longest input that is listed.
pub const LISTING_LIMIT: usize = 65_536;

/// The box around all tiles that aren't pyramid tiles; right and bottom exclusive.
#[derive(Clone, Copy, Debug, PartialEq, Eq)]
pub struct Edges {
    /// The least X Start.
    pub left: i64,
    /// The least Y Start.
    pub top: i64,
    /// The greatest X Start + Size.
    pub right: i64,
    /// The greatest Y Start + Size.
    pub bottom: i64,
}

/// The figures of a listing.
#[derive(Clone, Copy, Debug, PartialEq, Eq)]
pub struct Summary {
    /// The file's length.
    pub bytes: u64,
    /// All walked segments.
    pub segments: u64,
    /// The entries of the sub-block directory.
    pub tiles: u64,
    /// The entries of the attachment directory.
    pub attachments: u64,
    /// The box, if there is a tile that isn't a pyramid tile.
    pub edges: Option<Edges>,
}

impl File<'_> {
    /// The figures of the listing, for a file of any size.
    pub fn summary(&self) -> Summary {
        let full: Vec<&Tile> = self.tiles.iter().filter(|t| !t.is_pyramid_tile()).collect();
        let edges = (!full.is_empty()).then(|| Edges {
            left: full.iter().map(|t| t.x.start.into()).min().unwrap(),
            top: full.iter().map(|t| t.y.start.into()).min().unwrap(),
            right: full.iter().map(|t| t.x.end()).max().unwrap(),
            bottom: full.iter().map(|t| t.y.end()).max().unwrap(),
        });
        Summary {
            bytes: self.bytes.len() as u64,
            segments: self.segments.len() as u64,
            tiles: self.tiles.len() as u64,
            attachments: self.attachments.len() as u64,
            edges,
        }
    }
}

impl Summary {
    /// The listing's lines, each ended by a newline.
    pub fn text(&self) -> String {
        let edges = match self.edges {
            None => "none".to_string(),
            Some(e) => format!("{},{},{},{}", e.left, e.top, e.right, e.bottom),
        };
        format!(
            "bytes={}\nsegments={}\ntiles={}\nattachments={}\nbox={}\n",
            self.bytes, self.segments, self.tiles, self.attachments, edges
        )
    }
}

/// The listing of an input by a release, that of a refusal too. 30 goes before all.
pub fn list(input: &[u8], release: Release) -> String {
    let answer = if input.len() > LISTING_LIMIT {
        Err(Refusal::new(30, 0))
    } else {
        judge(input, release).map(|file| file.summary())
    };
    match answer {
        Ok(summary) => summary.text(),
        Err(refusal) => format!("refused={}\nplace={}\n", refusal.number, refusal.place),
    }
}
