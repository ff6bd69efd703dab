//! Questions to a sound file: ones that a composer answers, ones that it
//! refuses, and requests for what the file does not have.

mod clauses;
mod cut;
mod draw;
mod freedoms;
mod request;
mod select;

use crate::format::bytes_a_pixel;
use reference::Question;

pub use clauses::{ask_clauses, AskClause};
pub use cut::Cut;
pub use draw::draw;
pub use freedoms::{ask_freedoms, ask_freedoms_of};
pub use request::{Request, RequestClause, REQUEST_CLAUSES};
pub use select::{first_of_another_type, layer, meets, selects};

/// A question with the lengths of the buffers that are lent with it.
#[derive(Clone, Debug)]
pub struct Ask {
    /// The question.
    pub question: Question,
    /// The target's length.
    pub target: usize,
    /// The map's length.
    pub map: usize,
}

impl Ask {
    /// The target's length that the question needs; its type is a listed one.
    pub fn target_needed(&self) -> usize {
        self.question.pixels() as usize * bytes_a_pixel(self.question.pixel_type as i32)
    }

    /// The map's length that the question needs.
    pub fn map_needed(&self) -> usize {
        self.question.pixels().div_ceil(8) as usize
    }
}
