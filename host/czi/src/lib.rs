//! The proved CZI library for Rust: judges a file, hands out its parts and
//! records, lists it, composes planes of it, writes quote sheets, and repacks it
//! without its dead segments.
//!
//! A file is lent as its bytes. Any bytes and any number get an answer; nothing
//! has to be checked before a call, and no call changes a byte of the file or
//! keeps anything. Each question judges the whole file first: what [`judge`]
//! refuses, all of them refuse alike (but that [`list`] looks at the length
//! before, and [`quote`] at its settings); [`tiles`] and [`all_records`] give every
//! record for one judgement or two. A [`Refusal`] has a number of the table in docs/RULES.md and a place.
//! A file is judged by release 1.2 of the format, or by the one that a [`Scan`] of
//! it says.
//!
//! ```
//! # fn main() -> Result<(), Box<dyn std::error::Error>> {
//! let file = std::fs::read("../samples/mosaic.czi")?;
//! for tile in czi::tiles(&file)? {
//!     println!("{:?} from {}, {} on", tile.pixel_type, tile.x.start, tile.y.start);
//! }
//! let edges = czi::summary(&file)?.edges.ok_or("no tile has a place in a plane")?;
//! let question = czi::Question::default().over(edges).masks(czi::Masks::On);
//! assert_eq!(czi::chosen(&file, &question)?.meeting, 4);
//! assert_eq!(czi::compose(&file, &question)?.covered, 1138);
//! # Ok(())
//! # }
//! ```
//!
//! [`calls`] has the functions of `include/czi.h` one for one, for those who
//! want each number of an answer, refused ones too.

#![deny(unsafe_code)]

mod attachments;
pub mod calls;
mod chosen;
mod compose;
#[allow(unsafe_code)]
mod ffi;
mod mapping;
mod memory;
mod pixel;
mod plane;
mod question;
mod quote;
mod reader;
mod records;
mod refusal;
mod repack;
mod scan;
mod tiles;

/// `CZI_VERSION` of the header that this crate was written for.
pub const VERSION: u32 = 3;

/// No accepted file has more tiles; more are refused as 10.
pub const MOST_TILES: usize = 4096;

pub use attachments::{attachment, attachments, Attachment};
pub use calls::Counted;
pub use chosen::{chosen, Chosen, Mark};
pub use compose::{compose_plain, compose_quick};
pub use mapping::{map, map_file, read, Mapping};
pub use memory::NotMade;
pub use pixel::PixelType;
pub use plane::{compose, NoPlane, Plane};
pub use question::{Masks, Question, Scene};
pub use quote::{quote, Quote};
pub use reader::{
    attachment_data, common_attachment, common_xml, dimension, judge, list, summary, tile,
    tile_attachment, tile_metadata, tile_pixels,
};
pub use records::{Dimension, Edges, Extent, Layers, Mask, Summary, Tile};
pub use refusal::{Reason, Refusal};
pub use repack::{repack, repack_size, repacked};
pub use scan::{Release, Scan};
pub use tiles::{all_records, dimensions, tiles, Record, Records, Tiles};
