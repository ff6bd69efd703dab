//! An independent reader and composer for CZI files, written straight from
//! papers 01 and 02 and from nothing else: the other side of every comparison
//! with the proved library.
//!
//! It is slow and plain on purpose. A row of the paper's refusal table is an
//! `if` with the paper's words above it, rows stand in the paper's order, and
//! a plane is composed pixel by pixel: the topmost selected tile that gives
//! the pixel. Nothing is read before the check that makes it readable, so an
//! index out of bounds here (a panic) is a fault of the reading order.
//!
//! [`judge`] is the door: it answers a [`File`] or the first [`Refusal`], by the
//! [`Release`] that the caller says, and all else is asked of the [`File`], the clean
//! file of a repack too. But for a [`quote`], whose settings go before the file.

#![forbid(unsafe_code)]

mod attachment;
mod bytes;
mod chunk;
mod compose;
mod declaration;
mod directory;
mod entry;
mod file_segment;
mod judge;
mod listing;
mod metadata;
mod pixel;
mod question;
mod quote;
mod refusal;
mod release;
mod repack;
mod segment;
mod settings;
mod sub_block;
mod tile;

pub use attachment::Attachment;
pub use bytes::View;
pub use chunk::Mask;
pub use compose::Counts;
pub use declaration::declares_container;
pub use entry::Dimension;
pub use judge::{judge, File};
pub use listing::{list, Edges, Summary, LISTING_LIMIT};
pub use pixel::bytes_a_pixel;
pub use question::{Chosen, Masks, Question};
pub use quote::{quote, Quoted, SHEET};
pub use refusal::Refusal;
pub use release::Release;
pub use segment::{Kind, Segment};
pub use settings::Settings;
pub use sub_block::fixed_part;
pub use tile::{Extent, Layers, Tile};
