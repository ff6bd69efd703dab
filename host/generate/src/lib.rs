//! Files and questions by seed.
//!
//! [`sound`] gives files that a reader must accept, with every freedom that
//! the rules of papers 01 and 02 leave; [`damage`] changes one field of such a file so
//! that a given clause of the refusal table is reached; [`ask`] gives
//! questions, answered and refused ones; [`Settings`] and [`FaultySettings`] are
//! those of a quote; [`Sound::cut`] is a file with the asked layers alone; [`Sound::clean`] is the clean file that a repack must give, and
//! [`HUGE`] has files whose clean file is about 2^40 bytes long. Each says by name what it
//! reached, and a [`Tally`] counts the names.

#![forbid(unsafe_code)]

pub mod ask;
mod canvas;
mod clean;
mod container;
pub mod damage;
mod draft;
mod format;
mod freedoms;
mod huge;
mod layers;
mod limits;
mod markup;
mod one_tile;
mod random;
mod segment;
mod settings;
mod sound;
mod tally;
mod tile;
mod verdicts;

pub use draft::sound;
pub use format::{bytes_a_pixel, Kind, MASK_GUID, PIXEL_TYPES, SECTION};
pub use freedoms::{freedoms, freedoms_of};
pub use huge::{Huge, Sparse, HUGE};
pub use layers::{OneLayer, MOST_LAYERS};
pub use limits::{Limit, LIMITS, LISTING_CLAUSES, REPACK_CLAUSES, REPACK_LIMITS};
pub use markup::{draw_tokens, metadata_names, Metadata};
pub use one_tile::{Layered, OneTile};
pub use random::Random;
pub use segment::{SegmentPlace, HEADER};
pub use settings::{
    scramble_settings, settings_clauses, settings_freedoms, FaultySettings, Pitch, Settings,
};
pub use sound::{AttachmentPlace, EntryPlace, MetadataPlace, Sound};
pub use tally::Tally;
pub use tile::{Attached, Chunk, Dimension, MaskShape, Tile};
pub use verdicts::{verdicts, VERDICTS};
