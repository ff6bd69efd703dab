//! Windows of the plane, and a window cut by straight lines into smaller ones.

use std::fmt;
use std::ops::Range;

/// The longest side that the library composes.
const SIDE: u32 = 65_536;

/// A window: left and top, width and height, any numbers.
#[derive(Clone, Copy, Debug, Default, PartialEq, Eq)]
pub struct Window {
    /// The left column.
    pub left: i32,
    /// The top row.
    pub top: i32,
    /// The width.
    pub width: u32,
    /// The height.
    pub height: u32,
}

impl fmt::Display for Window {
    fn fmt(&self, f: &mut fmt::Formatter<'_>) -> fmt::Result {
        let Window {
            left,
            top,
            width,
            height,
        } = self;
        write!(f, "{left},{top},{width},{height}")
    }
}

impl Window {
    /// The box of a file.
    pub fn of(edges: &czi::Edges) -> Window {
        Window {
            left: edges.left,
            top: edges.top,
            width: edges.right.abs_diff(edges.left),
            height: edges.bottom.abs_diff(edges.top),
        }
    }

    /// Has it pixels, and a side that the library does not compose?
    pub fn is_large(&self) -> bool {
        self.pixels() != 0 && self.width.max(self.height) > SIDE
    }

    /// How many pixels it has; both sides are under 2^32, so this fits.
    pub fn pixels(&self) -> u64 {
        u64::from(self.width) * u64::from(self.height)
    }

    /// The column or row behind its last.
    pub fn right(&self) -> i64 {
        i64::from(self.left) + i64::from(self.width)
    }

    /// The row behind its last.
    pub fn bottom(&self) -> i64 {
        i64::from(self.top) + i64::from(self.height)
    }

    /// Its first and its last part of at most 65,536 a side. The library takes
    /// the whole window in parts where it takes these two; a part that starts
    /// past the last column or row is put there, where no part fits.
    pub fn ends(&self) -> [Window; 2] {
        let (width, height) = (self.width.min(SIDE), self.height.min(SIDE));
        let last = |end: i64, side: u32| (end - i64::from(side)).min(i32::MAX.into()) as i32;
        let part = |left, top| Window {
            left,
            top,
            width,
            height,
        };
        [
            part(self.left, self.top),
            part(last(self.right(), width), last(self.bottom(), height)),
        ]
    }
}

/// A window cut into parts of one size, smaller ones at the right and bottom.
#[derive(Clone, Copy, Debug)]
pub struct Cut {
    whole: Window,
    /// The size of a part.
    pub width: u32,
    /// The size of a part.
    pub height: u32,
}

impl Cut {
    /// Into parts of at most so many pixels and 65,536 a side.
    pub fn new(whole: Window, pixels: u64) -> Cut {
        let pixels = pixels.max(1);
        let width = even(whole.width, u64::from(SIDE).min(pixels));
        let height = even(whole.height, u64::from(SIDE).min(pixels / u64::from(width)));
        Cut {
            whole,
            width,
            height,
        }
    }

    /// Into parts of whole rows, of at most so many pixels or of one row.
    pub fn rows(whole: Window, pixels: u64) -> Cut {
        let width = whole.width.max(1);
        let height = even(whole.height, u64::from(SIDE).min(pixels / u64::from(width)));
        Cut {
            whole,
            width,
            height,
        }
    }

    fn columns(&self) -> u64 {
        self.whole.width.div_ceil(self.width).into()
    }

    fn rows_of_parts(&self) -> u64 {
        self.whole.height.div_ceil(self.height).into()
    }

    /// How many parts there are.
    pub fn parts(&self) -> u64 {
        self.columns() * self.rows_of_parts()
    }

    /// The part of that number, row by row.
    pub fn part(&self, number: u64) -> Window {
        let (column, row) = (number % self.columns(), number / self.columns());
        self.window(&Block {
            columns: column..column + 1,
            rows: row..row + 1,
        })
    }

    /// The window that a block of parts makes up.
    fn window(&self, block: &Block) -> Window {
        let side = |start: i32, all: u32, size: u32, parts: &Range<u64>| {
            let before = parts.start * u64::from(size);
            let end = (parts.end * u64::from(size)).min(all.into());
            let first = (i64::from(start) + before as i64) as i32;
            (first, (end - before) as u32)
        };
        let Window { left, top, .. } = self.whole;
        let (left, width) = side(left, self.whole.width, self.width, &block.columns);
        let (top, height) = side(top, self.whole.height, self.height, &block.rows);
        Window {
            left,
            top,
            width,
            height,
        }
    }

    /// The numbers of parts, in order, that may be met. A block of parts of which
    /// none is met is not met itself and is left out whole, so that a window that is
    /// empty for the most part takes few questions; a block of at most so many parts
    /// is not looked into.
    pub fn may_be_met<E>(
        &self,
        few: u64,
        mut is_met: impl FnMut(Window) -> Result<bool, E>,
    ) -> Result<Vec<u64>, E> {
        let mut numbers = Vec::new();
        let mut blocks = vec![Block {
            columns: 0..self.columns(),
            rows: 0..self.rows_of_parts(),
        }];
        while let Some(block) = blocks.pop() {
            if !is_met(self.window(&block))? {
                continue;
            }
            match block.halves(few) {
                Some([first, second]) => blocks.extend([second, first]),
                None => numbers.extend(block.rows.flat_map(|row| {
                    let first = row * self.columns();
                    first + block.columns.start..first + block.columns.end
                })),
            }
        }
        Ok(numbers)
    }
}

/// A block of parts: of whole rows, or of one row.
struct Block {
    columns: Range<u64>,
    rows: Range<u64>,
}

impl Block {
    /// Its halves, or nothing where it has at most so many parts, or one.
    fn halves(&self, few: u64) -> Option<[Block; 2]> {
        let (columns, rows) = (self.columns.clone(), self.rows.clone());
        let (wide, high) = (columns.end - columns.start, rows.end - rows.start);
        if wide * high <= few.max(1) {
            return None;
        }
        let (column, row) = (columns.start + wide / 2, rows.start + high / 2);
        let block = |columns, rows| Block { columns, rows };
        Some(match high {
            1 => [
                block(columns.start..column, rows.clone()),
                block(column..columns.end, rows),
            ],
            _ => [
                block(columns.clone(), rows.start..row),
                block(columns, row..rows.end),
            ],
        })
    }
}

/// The side of parts that are as equal as can be, none over `most`; at least 1.
fn even(whole: u32, most: u64) -> u32 {
    let most = most.clamp(1, SIDE.into()) as u32;
    whole.div_ceil(whole.div_ceil(most).max(1)).max(1)
}

#[cfg(test)]
mod tests {
    use super::*;

    fn window(left: i32, top: i32, width: u32, height: u32) -> Window {
        Window {
            left,
            top,
            width,
            height,
        }
    }

    /// Every pixel of a small window is in one part, and no part is too large.
    #[test]
    fn parts_are_the_whole() {
        let whole = window(-7, 5, 23, 17);
        for pixels in [0, 1, 2, 5, 22, 23, 24, 100, 390, 391, 1000] {
            for cut in [Cut::new(whole, pixels), Cut::rows(whole, pixels)] {
                let mut seen = vec![0; 23 * 17];
                for k in 0..cut.parts() {
                    let part = cut.part(k);
                    assert!(part.width <= cut.width && part.height <= cut.height);
                    for y in part.top..part.bottom() as i32 {
                        for x in part.left..part.right() as i32 {
                            seen[((y - 5) * 23 + x + 7) as usize] += 1;
                        }
                    }
                }
                assert!(seen.iter().all(|times| *times == 1), "{cut:?}");
            }
            let most = pixels.max(1);
            assert!(Cut::new(whole, pixels).part(0).pixels() <= most);
            assert_eq!(Cut::rows(whole, pixels).part(0).width, 23);
        }
    }

    #[test]
    fn the_largest_box_is_cut_without_wrapping() {
        let edges = czi::Edges {
            left: i32::MIN,
            top: i32::MIN,
            right: i32::MAX,
            bottom: i32::MAX,
        };
        let whole = Window::of(&edges);
        let cut = Cut::new(whole, 1 << 29);
        let last = cut.part(cut.parts() - 1);
        assert_eq!(
            (last.right(), last.bottom()),
            (whole.right(), whole.bottom())
        );
        assert!(cut.width <= SIDE && cut.height <= SIDE);
        assert_eq!(cut.part(0).left, i32::MIN);
    }

    /// The parts that hold one of some pixels are found, in order, and with few
    /// questions.
    #[test]
    fn parts_that_may_be_met() {
        let whole = window(-7, 5, 2300, 1700);
        let cut = Cut::new(whole, 100);
        let pixels = [
            (-7, 5),
            (-6, 5),
            (0, 900),
            (2292, 5),
            (2292, 1704),
            (1000, 6),
        ];
        let is_met = |part: Window| {
            let columns = i64::from(part.left)..part.right();
            let rows = i64::from(part.top)..part.bottom();
            let mut pixels = pixels.iter();
            pixels.any(|(x, y)| columns.contains(x) && rows.contains(y))
        };
        let met: Vec<u64> = (0..cut.parts()).filter(|k| is_met(cut.part(*k))).collect();
        assert!(met.len() >= 5 && cut.parts() > 10_000);
        for few in [0, 1, 2, 8, 100, u64::MAX] {
            let mut asked = 0;
            let found = cut.may_be_met(few, |part| {
                asked += 1;
                Ok::<bool, ()>(is_met(part))
            });
            let found = found.unwrap();
            assert!(found.is_sorted() && met.iter().all(|k| found.contains(k)));
            assert!(few > 1 || found == met, "{found:?}");
            assert!(found.len() as u64 <= few.max(1).saturating_mul(met.len() as u64));
            assert!(asked <= 2 * 16 * met.len(), "{asked} questions");
        }
        assert_eq!(cut.may_be_met(1, |_| Err(3)), Err(3));
        assert_eq!(cut.may_be_met(1, |_| Ok::<bool, ()>(false)), Ok(vec![]));
    }

    #[test]
    fn ends_are_the_corners() {
        let [first, last] = window(-5, 7, 100_000, 3).ends();
        assert_eq!(first, window(-5, 7, 65_536, 3));
        assert_eq!(last, window(-5 + 100_000 - 65_536, 7, 65_536, 3));
        let [_, last] = window(i32::MAX, 0, u32::MAX, 0).ends();
        assert_eq!(last, window(i32::MAX, 0, 65_536, 0));
    }
}
