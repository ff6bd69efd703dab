//! Composing a plane by the pixel rule: refusals 20, 21, 22 and 23.

use crate::bytes::part;
use crate::judge::File;
use crate::pixel::bytes_a_pixel;
use crate::question::Question;
use crate::quote::SHEET;
use crate::refusal::{refuse_if, Refusal};
use crate::tile::Tile;

/// What the composers count.
#[derive(Clone, Copy, Debug, PartialEq, Eq)]
pub struct Counts {
    /// The ones in the coverage map.
    pub covered: u64,
    /// The plain composer's store count: the sum, over the selected tiles, of
    /// their unmasked pixels in the window.
    pub stored_plain: u64,
    /// The quick composer's store count: the covered count.
    pub stored_quick: u64,
}

impl File<'_> {
    /// Composes the plane into the lent target and map, or changes neither.
    /// Both composers give the same plane, so one call answers for both.
    pub fn compose(
        &self,
        question: &Question,
        target: &mut [u8],
        map: &mut [u8],
    ) -> Result<Counts, Refusal> {
        let pixel_length = self.ask(question, target.len(), map.len(), None)?;
        Ok(self.paint(question, pixel_length, target, map))
    }

    /// Composes the plane of a question that is not refused.
    pub(crate) fn paint(
        &self,
        question: &Question,
        pixel_length: usize,
        target: &mut [u8],
        map: &mut [u8],
    ) -> Counts {
        let selected: Vec<&Tile> = self.tiles.iter().filter(|t| question.selects(t)).collect();
        let mut counts = Counts {
            covered: 0,
            stored_plain: 0,
            stored_quick: 0,
        };
        map[..map_length(question) as usize].fill(0);
        for row in 0..i64::from(question.height) {
            for column in 0..i64::from(question.width) {
                let u = i64::from(question.left) + column;
                let v = i64::from(question.top) + row;
                let giving: Vec<&Tile> = selected
                    .iter()
                    .copied()
                    .filter(|t| self.gives(t, u, v, question.masks_on()))
                    .collect();
                let index = (row * i64::from(question.width) + column) as usize;
                let pixel = match topmost(&giving) {
                    Some(tile) => {
                        map[index / 8] |= 0x80 >> (index % 8);
                        counts.covered += 1;
                        self.pixel(tile, question.layer_of(tile), u, v)
                    }
                    None => &question.background,
                };
                counts.stored_plain += giving.len() as u64;
                target[index * pixel_length..][..pixel_length].copy_from_slice(pixel);
            }
        }
        counts.stored_quick = counts.covered;
        counts
    }

    /// 20, 21, 22, 23; answers the length of a pixel. A quote lends a sheet too.
    pub(crate) fn ask(
        &self,
        q: &Question,
        target: usize,
        map: usize,
        sheet: Option<usize>,
    ) -> Result<usize, Refusal> {
        // 20: window side not 1 to 65,536, or right or bottom edge above 2,147,483,647.
        let is_side = |side| (1..=65_536).contains(&side);
        refuse_if(!is_side(q.width) || !is_side(q.height), 20, 0)?;
        let last = i64::from(i32::MAX);
        refuse_if(q.right() > last || q.bottom() > last, 20, 0)?;
        // 21: asked type not listed, or background not one pixel long.
        let pixel_length = bytes_a_pixel(q.pixel_type.into()).ok_or(Refusal::new(21, 0))?;
        refuse_if(q.background.len() as u64 != pixel_length, 21, 0)?;
        // 22: target or map too short.
        refuse_if((target as u64) < q.pixels() * pixel_length, 22, 0)?;
        refuse_if((map as u64) < map_length(q), 22, 0)?;
        // A buffer under 49 bytes is 22 (Req 09), however short the text would be.
        refuse_if(sheet.is_some_and(|length| length < SHEET), 22, 0)?;
        // 23: a selected tile that meets the window has another type; the first such entry.
        for tile in &self.tiles {
            let other = q.selects(tile) && q.meets(tile) && tile.pixel_type != q.pixel_type;
            refuse_if(other, 23, tile.place)?;
        }
        Ok(pixel_length as usize)
    }

    /// Does the tile cover plane pixel (u, v) and is it unmasked there?
    fn gives(&self, tile: &Tile, u: i64, v: i64, masks_on: bool) -> bool {
        let column = u - i64::from(tile.x.start);
        let row = v - i64::from(tile.y.start);
        let covers = (0..i64::from(tile.x.size)).contains(&column)
            && (0..i64::from(tile.y.size)).contains(&row);
        covers
            && match tile.mask {
                Some(mask) if masks_on => mask.is_valid(self.bytes, column as u64, row as u64),
                _ => true,
            }
    }

    /// The bytes of the tile's pixel in that layer at plane pixel (u, v), which it covers.
    fn pixel(&self, tile: &Tile, layer: u64, u: i64, v: i64) -> &[u8] {
        let column = (u - i64::from(tile.x.start)) as u64;
        let row = (v - i64::from(tile.y.start)) as u64;
        let before = layer * tile.x.size as u64 * tile.y.size as u64;
        let index = before + row * tile.x.size as u64 + column;
        let at = tile.pixels.start + index * tile.bytes_a_pixel;
        part(self.bytes, at, tile.bytes_a_pixel)
    }
}

/// The map's length in bytes: one bit a pixel.
fn map_length(question: &Question) -> u64 {
    question.pixels().div_ceil(8)
}

/// The topmost of some tiles in directory order: greater M lies on top, tiles
/// without M lie below all with M, at a tie the later entry is on top.
fn topmost<'a>(tiles: &[&'a Tile]) -> Option<&'a Tile> {
    let mut top: Option<&Tile> = None;
    for &tile in tiles {
        let above = match top {
            None => true,
            Some(below) => match (tile.m, below.m) {
                (Some(m), Some(n)) => m >= n,
                (None, Some(_)) => false,
                (_, None) => true,
            },
        };
        if above {
            top = Some(tile);
        }
    }
    top
}
