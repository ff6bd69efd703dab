//! A window cut in two by a straight line between two columns or two rows.

use super::draw::lend;
use super::Ask;
use crate::random::Random;

/// The two halves of a window; each has its own buffers, all else is the whole's.
#[derive(Clone, Debug)]
pub struct Cut {
    /// The left or upper half.
    pub first: Ask,
    /// The right or lower half.
    pub second: Ask,
}

impl Cut {
    /// Some cut of the window, or nothing for a single pixel.
    pub fn draw(ask: &Ask, random: &mut Random) -> Option<Cut> {
        let question = &ask.question;
        let mut cut = Cut {
            first: ask.clone(),
            second: ask.clone(),
        };
        let (first, second) = (&mut cut.first.question, &mut cut.second.question);
        let between_columns = match (question.width > 1, question.height > 1) {
            (false, false) => return None,
            (true, true) => random.percent(50),
            (wide, _) => wide,
        };
        if between_columns {
            first.width = 1 + random.below(question.width as usize - 1) as u32;
            second.width = question.width - first.width;
            second.left = (i64::from(question.left) + i64::from(first.width)) as i32;
        } else {
            first.height = 1 + random.below(question.height as usize - 1) as u32;
            second.height = question.height - first.height;
            second.top = (i64::from(question.top) + i64::from(first.height)) as i32;
        }
        lend(&mut cut.first, random);
        lend(&mut cut.second, random);
        Some(cut)
    }
}
