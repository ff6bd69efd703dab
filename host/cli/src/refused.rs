//! What is to be said of a refused question beyond the rule: which half of it
//! failed, and what the tile has.

use crate::failure::Failure;
use crate::records;
use crate::types;
use crate::window::Window;
use czi::{PixelType, Reason, Refusal, Scan};

/// What was asked for.
#[derive(Clone, Copy)]
pub struct Asked {
    /// The window.
    pub window: Window,
    /// The longest side that was allowed.
    pub side: u32,
    /// The pixel type.
    pub pixel_type: u32,
    /// The length of the background.
    pub background: usize,
}

/// Adds to a refusal of 20 to 23 what it is about.
pub fn explain(scan: Scan, asked: &Asked, failure: Failure) -> Failure {
    let Failure::Refused(refusal, None) = failure else {
        return failure;
    };
    let more = match refusal.reason {
        // Where the window is cut, sides of over 65,536 are taken.
        Reason::Window if asked.side == u32::MAX => {
            let words = "a side of the window is 0, or an edge is past 2147483647";
            let more = window(asked).map_or(String::new(), |more| format!(" ({more})"));
            return Failure::Worded(refusal, format!("{words}{more}"));
        }
        Reason::Window => window(asked),
        Reason::AskedType => pixel(asked),
        Reason::Lent => Some("the command lent too little".to_string()),
        Reason::AnotherType => tile(scan, asked, &refusal),
        _ => None,
    };
    Failure::Refused(refusal, more)
}

fn window(asked: &Asked) -> Option<String> {
    let Window { width, height, .. } = asked.window;
    let wrong = |side: u32| side == 0 || side > asked.side;
    let past = |end: i64| end > i32::MAX.into();
    let (right, bottom) = (asked.window.right(), asked.window.bottom());
    if wrong(width) {
        Some(format!("the width is {width}"))
    } else if wrong(height) {
        Some(format!("the height is {height}"))
    } else if past(right) {
        Some(format!("the right edge is {right}"))
    } else if past(bottom) {
        Some(format!("the bottom edge is {bottom}"))
    } else {
        None
    }
}

fn pixel(asked: &Asked) -> Option<String> {
    let number = asked.pixel_type;
    let Some(listed) = PixelType::of_number(number.into()) else {
        return Some(format!("there is no type {number}"));
    };
    let (name, bytes) = (types::name(listed), listed.bytes());
    let given = asked.background;
    Some(format!(
        "the background has {given} bytes, a pixel of {name} has {bytes}"
    ))
}

fn tile(scan: Scan, asked: &Asked, refusal: &Refusal) -> Option<String> {
    let tile = records::at(scan, refusal.place)?;
    let name = PixelType::of_number(asked.pixel_type.into()).map(types::name)?;
    let (entry, has) = (tile.entry, types::name(tile.pixel_type));
    Some(format!("tile {entry} has {has}, asked for is {name}"))
}

#[cfg(test)]
mod tests {
    use super::*;

    #[test]
    fn a_window_that_is_cut_is_refused_by_other_words() {
        let window = Window {
            width: 70_000,
            ..Window::default()
        };
        let mut asked = Asked {
            window,
            side: u32::MAX,
            pixel_type: 0,
            background: 1,
        };
        let line =
            |asked: &Asked| explain(Scan::new(&[]), asked, Refusal::new(20, 0).into()).to_string();
        let words = "refused 20 at 0: a side of the window is 0, or an edge is past 2147483647";
        assert_eq!(line(&asked), format!("{words} (the height is 0)"));
        asked.side = 65_536;
        assert!(line(&asked).contains("65536") && line(&asked).ends_with("(the width is 70000)"));
    }

    fn said(number: u32, window: Window, pixel_type: u32, background: usize) -> String {
        let asked = Asked {
            window,
            side: 65_536,
            pixel_type,
            background,
        };
        explain(Scan::new(&[]), &asked, Refusal::new(number, 0).into()).to_string()
    }

    #[test]
    fn the_half_that_failed_is_named() {
        let window = |left, top, width, height| Window {
            left,
            top,
            width,
            height,
        };
        let sound = window(0, 0, 1, 1);
        for (number, window, pixel_type, background, ending) in [
            (20, window(0, 0, 0, 1), 0, 1, "(the width is 0)"),
            (20, window(0, 0, 1, 65_537), 0, 1, "(the height is 65537)"),
            (
                20,
                window(i32::MAX, 0, 1, 1),
                0,
                1,
                "(the right edge is 2147483648)",
            ),
            (
                20,
                window(0, i32::MAX, 1, 2),
                0,
                1,
                "(the bottom edge is 2147483649)",
            ),
            (21, sound, 12, 0, "(there is no type 12)"),
            (
                21,
                sound,
                1,
                3,
                "(the background has 3 bytes, a pixel of gray16 has 2)",
            ),
            (22, sound, 0, 1, "(the command lent too little)"),
            (9, sound, 0, 1, "begins"),
        ] {
            let line = said(number, window, pixel_type, background);
            assert!(line.ends_with(ending), "{line}");
        }
    }
}
