//! The lent target and map that all sides of a measure share, so that no side has better memory than another.

use czi::{compose_plain, compose_quick, Counted, Masks, PixelType, Question, Refusal, Scene};

/// The window's side in pixels.
pub const SIDE: usize = 4096;

type Composer = fn(&[u8], &Question, &mut [u8], &mut [u8]) -> Result<Counted, Refusal>;

/// Target and map of the window.
pub struct Planes {
    pixel_type: PixelType,
    /// The target.
    pub target: Vec<u8>,
    /// The map.
    pub map: Vec<u8>,
}

/// What is called.
#[derive(Clone, Copy)]
pub struct Call {
    /// The composer.
    composer: Composer,
    /// The choice of masks.
    masks: Masks,
    /// The background pixel's bytes, as many as a pixel has.
    background: [u8; 6],
    /// The starts of A to Z; 0 where there are none.
    starts: &'static [i32],
}

impl Call {
    /// The quick composer, masks on, on a background whose bytes differ.
    pub const QUICK: Call = Call {
        composer: |file, question, target, map| compose_quick(file, question, target, map),
        masks: Masks::On,
        background: [1, 2, 3, 4, 5, 6],
        starts: &[],
    };
    /// The plain composer.
    pub const PLAIN: Call = Call {
        composer: |file, question, target, map| compose_plain(file, question, target, map),
        ..Call::QUICK
    };
    /// The quick composer, masks off.
    pub const QUICK_OFF: Call = Call {
        masks: Masks::Off,
        ..Call::QUICK
    };
    /// The plain composer, masks off.
    pub const PLAIN_OFF: Call = Call {
        masks: Masks::Off,
        ..Call::PLAIN
    };
    /// The quick composer, masks off, on black.
    pub const QUICK_BLACK: Call = Call {
        background: [0; 6],
        ..Call::QUICK_OFF
    };

    /// The same with these starts.
    pub const fn starting(self, starts: &'static [i32]) -> Call {
        Call { starts, ..self }
    }
}

impl Planes {
    /// For pixels of that type.
    pub fn new(pixel_type: PixelType) -> Planes {
        Planes {
            pixel_type,
            target: vec![0; SIDE * SIDE * pixel_type.bytes()],
            map: vec![0; SIDE * SIDE / 8],
        }
    }

    /// The whole call: judges the file and composes its window.
    pub fn compose(&mut self, call: Call, file: &[u8]) {
        let question = Question {
            starts: call.starts,
            scene: Scene::AsStarts,
            pixel_type: self.pixel_type,
            background: &call.background[..self.pixel_type.bytes()],
            left: 0,
            top: 0,
            width: SIDE as u32,
            height: SIDE as u32,
            masks: call.masks,
        };
        (call.composer)(file, &question, &mut self.target, &mut self.map).expect("an answer");
    }
}
