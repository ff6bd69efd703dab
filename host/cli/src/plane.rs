//! The plane that is asked for: window and type as given, or as the file has them.

use crate::failure::Failure;
use crate::question::Question;
use crate::records;
use crate::refused::{explain, Asked};
use crate::types;
use crate::window::Window;
use czi::calls::{self, ChosenCounts, Plain};
use czi::{PixelType, Reason, Refusal, Scan, Summary, Tile};

/// The mark of a selected tile that shares a pixel with the window.
const MEETS: u8 = 2;

/// A window that the library composes, of a file without a box.
const ONE_PIXEL: Window = Window {
    left: 0,
    top: 0,
    width: 1,
    height: 1,
};

/// A file and what is asked of it.
pub struct Plane<'a> {
    /// The file, and by which release it is judged.
    pub scan: Scan<'a>,
    /// The question.
    pub question: &'a Question,
    /// Its figures.
    pub summary: Summary,
    /// The window; nothing where none is given and the file has no box.
    pub window: Option<Window>,
    /// The tiles.
    tiles: Vec<Tile>,
    /// A mark for each tile, as the library gives it for that window.
    marks: Vec<u8>,
    /// How many tiles are selected, and how many of them meet the window.
    chosen: ChosenCounts,
    /// The longest side that is allowed.
    side: u32,
}

impl<'a> Plane<'a> {
    /// Judges the file; a window of any sides is allowed where it is cut.
    pub fn new(scan: Scan<'a>, question: &'a Question, is_cut: bool) -> Result<Self, Failure> {
        let summary = czi::summary(scan)?;
        let window = question.window.or(summary.edges.as_ref().map(Window::of));
        let mut marks = vec![0; summary.tiles as usize];
        // Without a window: one that no tile meets.
        let asked = question.plain(window.unwrap_or_default(), 0, &[]);
        let release = scan.release.number();
        let chosen = calls::chosen(scan.file, release, &asked, &mut marks).result()?;
        Ok(Plane {
            scan,
            question,
            summary,
            window,
            tiles: czi::tiles(scan)?.collect(),
            marks,
            chosen,
            side: if is_cut { u32::MAX } else { 65_536 },
        })
    }

    /// File and release as the library takes them.
    pub fn lent(&self) -> (&'a [u8], u32) {
        (self.scan.file, self.scan.release.number())
    }

    /// The background for that type: as given, or zeros.
    pub fn background(&self, pixel_type: u32) -> Vec<u8> {
        let zeros = || vec![0; types::bytes(pixel_type)];
        self.question.background.clone().unwrap_or_else(zeros)
    }

    /// The question to the library, for a part of the window.
    pub fn plain<'b>(&'b self, part: Window, pixel_type: u32, background: &'b [u8]) -> Plain<'b> {
        self.question.plain(part, pixel_type, background)
    }

    /// Does a selected tile share a pixel with that part? Where none does, it has
    /// no covered pixel.
    pub fn is_met(&self, part: Window) -> Result<bool, Failure> {
        let mut marks = vec![0; self.marks.len()];
        let asked = self.plain(part, 0, &[]);
        let (file, release) = self.lent();
        let chosen = calls::chosen(file, release, &asked, &mut marks).result()?;
        Ok(chosen.meeting != 0)
    }

    /// The type that is asked for, or that of the tiles that meet the window, or the
    /// first tile's where none does; nothing where there is no tile either. What is
    /// refused whatever is lent is refused here, and then 23 of the whole window, at
    /// the first tile of another type in the directory, however it is cut later.
    pub fn pixel_type(&self) -> Result<Option<u32>, Failure> {
        let marked = self.tiles.iter().zip(&self.marks);
        let meeting = marked.filter(|(_, mark)| **mark == MEETS);
        let mut meeting = meeting.map(|(tile, _)| tile);
        let given = self.question.pixel_type;
        let one = match given {
            Some(_) => None,
            // Where none meets the window the type makes no difference.
            None => meeting.next().or(self.tiles.first()),
        };
        // Without a window a type that is not listed is refused all the same.
        let window = self.window.unwrap_or(ONE_PIXEL);
        let Some(pixel_type) = given.or(one.map(|tile| tile.pixel_type.number())) else {
            let gray8 = PixelType::Gray8;
            self.refuse_early(window, gray8.number(), &[0][..gray8.bytes()])?;
            return Ok(None);
        };
        self.refuse_early(window, pixel_type, &self.background(pixel_type))?;
        match meeting.find(|tile| tile.pixel_type.number() != pixel_type) {
            None => Ok(Some(pixel_type)),
            Some(other) => {
                let failure = another_type(one, other);
                Err(self.explained(window, pixel_type, failure))
            }
        }
    }

    /// The window and the type, where a plane needs both.
    pub fn whole(&self) -> Result<(Window, u32), Failure> {
        let missing = |what: String| Failure::Other(format!("the file has no {what}"));
        let pixel_type = self.pixel_type()?;
        let Some(window) = self.window else {
            let why = match self.summary.tiles {
                0 => "it has no tiles".to_string(),
                1 => "its one tile is a pyramid tile".to_string(),
                tiles => format!("its {tiles} tiles are pyramid tiles"),
            };
            let what = format!("tile that counts ({why}), so it has no box: name a --window");
            return Err(missing(what));
        };
        let no_type = || missing("tiles, so a --type must be given".to_string());
        Ok((window, pixel_type.ok_or_else(no_type)?))
    }

    /// How many tiles are left out, pyramid tiles aside, and of how many.
    pub fn left_out(&self) -> (u64, u64) {
        let tiles = self.tiles.iter().filter(|tile| !tile.is_pyramid_tile());
        let all = tiles.count() as u64;
        (all.saturating_sub(self.chosen.selected), all)
    }

    /// 20 and 21, before memory is taken: they go before 22, which is given where
    /// nothing is lent.
    fn refuse_early(
        &self,
        window: Window,
        pixel_type: u32,
        background: &[u8],
    ) -> Result<(), Failure> {
        let ends = match self.side {
            u32::MAX => window.ends(),
            _ => [window; 2],
        };
        for part in ends {
            let question = self.plain(part, pixel_type, background);
            let (file, release) = self.lent();
            let answer = calls::compose_quick(file, release, &question, &mut [], &mut []);
            match answer.result() {
                Err(refusal) if refusal.reason != Reason::Lent => {
                    return Err(self.explained(window, pixel_type, refusal.into()));
                }
                _ => {}
            }
        }
        Ok(())
    }

    /// A refusal with what it is about.
    pub fn explained(&self, window: Window, pixel_type: u32, failure: Failure) -> Failure {
        let asked = Asked {
            window,
            side: self.side,
            pixel_type,
            background: self.background(pixel_type).len(),
        };
        explain(self.scan, &asked, failure)
    }

    /// The line that says what was chosen; the release always, and where tiles have
    /// layers the start along their letter and which there are, so that one that was
    /// forgotten is seen.
    pub fn chosen(&self, pixel_type: Option<u32>) -> String {
        let listed = pixel_type.and_then(|number| PixelType::of_number(number.into()));
        let named = listed.map_or("none", types::name);
        let window = self.window.map_or("none".to_string(), |w| w.to_string());
        let tiles = self.summary.tiles;
        let question = self.question.said(&records::layers(&self.tiles));
        let ChosenCounts { selected, meeting } = self.chosen;
        let release = self.scan.release;
        format!(
            "tiles={tiles} selected={selected} meet={meeting} release={release} {question} type={named} window={window}\n"
        )
    }
}

/// A tile that meets the window and has another type than was asked for, or, where
/// none was, than the first one that meets it has: asked for that one's, the library
/// refuses the other.
fn another_type(one: Option<&Tile>, other: &Tile) -> Failure {
    let said = |tile: &Tile| format!("tile {} has {}", tile.entry, types::name(tile.pixel_type));
    let both = one.map(|one| format!("{}, {}", said(one), said(other)));
    let refusal = Refusal {
        reason: Reason::AnotherType,
        place: other.place,
    };
    Failure::Refused(refusal, both)
}
