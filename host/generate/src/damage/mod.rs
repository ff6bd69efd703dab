//! Damage to a sound file: one field changed so that one clause of the refusal
//! table is reached, with the refusal that a reader must then give.
//!
//! Each module below has a table of [`Clause`]s. A clause's name begins with
//! its number in the paper's table. Two damages at once are refused by the
//! earlier in the paper's [`Order`]; 17 and 18 are never given under release
//! 1.02, so that such damage alone is none there.

mod attachment;
mod chunk;
mod directory;
mod edit;
mod entry;
mod file_segment;
mod layers;
mod metadata;
mod order;
mod position;
mod scramble;
mod segment;
mod sub_block;

use crate::random::Random;
use crate::sound::Sound;
use reference::{Refusal, Release};

pub use edit::Edit;
pub use order::Order;
pub use scramble::scramble;

/// A clause that no file made here can reach; the comparison maps a sparse file for it.
pub const EXTERNAL_CLAUSE: &str = "1: length above 2^40";

/// A clause of the refusal table.
pub struct Clause {
    /// The number and the words.
    pub name: &'static str,
    /// The number that a reader must give.
    pub number: u32,
    make: fn(&Sound, &mut Random) -> Option<Damage>,
}

/// Damage that reaches one clause.
#[derive(Clone, Debug)]
struct Damage {
    edits: Vec<Edit>,
    place: usize,
    order: Order,
    /// May stand beside damage to other fields.
    pairs: bool,
    /// The sub-block in which it moves the end of a part; beside another such
    /// damage to it neither would be about the same bytes any more.
    moves: Option<usize>,
}

/// What a file is refused for, unless something earlier is given.
#[derive(Clone, Copy, Debug)]
struct Fault {
    clause: &'static str,
    order: Order,
    refusal: Refusal,
}

impl Fault {
    fn is_of_chunks(&self) -> bool {
        [17, 18].contains(&self.refusal.number)
    }
}

/// A damaged file with the refusals that it must get.
#[derive(Clone, Debug)]
pub struct Damaged {
    damage: Damage,
    /// At least one.
    faults: Vec<Fault>,
}

/// All clauses that refuse a file, in the table's order.
pub fn clauses() -> Vec<&'static Clause> {
    let tables = [
        segment::CLAUSES,
        file_segment::CLAUSES,
        directory::CLAUSES,
        entry::CLAUSES,
        layers::CLAUSES,
        sub_block::CLAUSES,
        chunk::CLAUSES,
        metadata::CLAUSES,
        attachment::CLAUSES,
    ];
    let mut all: Vec<&Clause> = tables.into_iter().flatten().collect();
    all.sort_by_key(|clause| clause.number);
    all
}

impl Clause {
    const fn new(
        name: &'static str,
        number: u32,
        make: fn(&Sound, &mut Random) -> Option<Damage>,
    ) -> Clause {
        Clause { name, number, make }
    }

    /// Damage that reaches the clause, or nothing where the file has no field for it.
    pub fn damage(&self, sound: &Sound, random: &mut Random) -> Option<Damaged> {
        let damage = (self.make)(sound, random)?;
        let fault = Fault {
            clause: self.name,
            order: damage.order,
            refusal: Refusal::new(self.number, damage.place as u64),
        };
        Some(Damaged {
            damage,
            faults: vec![fault],
        })
    }
}

/// A broken container with a later fault in the same file, where it has both: 1.2
/// gives 17 or 18, and 1.02 the fault.
pub fn behind_a_container(sound: &Sound, random: &mut Random) -> Option<Damaged> {
    let mut chunks: Vec<&Clause> = chunk::CLAUSES.iter().collect();
    random.shuffle(&mut chunks);
    let broken = chunks.iter().find_map(|c| c.damage(sound, random))?;
    let tables = [
        directory::CLAUSES,
        entry::CLAUSES,
        layers::CLAUSES,
        sub_block::CLAUSES,
        metadata::CLAUSES,
        attachment::CLAUSES,
    ];
    let mut others: Vec<&Clause> = tables.into_iter().flatten().collect();
    random.shuffle(&mut others);
    others.into_iter().find_map(|clause| {
        let later = clause.damage(sound, random)?;
        let is_later = broken.damage.order < later.damage.order;
        broken.beside(&later).filter(|_| is_later)
    })
}

impl Damaged {
    /// The clause that is reached under release 1.2.
    pub fn clause(&self) -> &'static str {
        let fault = self.first(Release::V1_2);
        fault.expect("a damaged file has a fault").clause
    }

    /// The refusal that the file must get under that release; nothing where it must
    /// be accepted.
    pub fn refusal(&self, release: Release) -> Option<Refusal> {
        self.first(release).map(|fault| fault.refusal)
    }

    /// Is a chunk or a mask broken?
    pub fn breaks_a_container(&self) -> bool {
        self.faults.iter().any(Fault::is_of_chunks)
    }

    /// The earliest fault. Under 1.02 broken chunks and masks are none.
    fn first(&self, release: Release) -> Option<&Fault> {
        let is_given = |fault: &&Fault| match release {
            Release::V1_2 => true,
            Release::V1_02 => !fault.is_of_chunks(),
        };
        let given = self.faults.iter().filter(is_given);
        given.min_by_key(|fault| fault.order)
    }

    /// The sound file with the damage done.
    pub fn apply(&self, sound: &Sound) -> Vec<u8> {
        let mut bytes = sound.bytes.clone();
        for edit in &self.damage.edits {
            edit.apply(&mut bytes);
        }
        bytes
    }

    /// Both damages at once, refused by the earlier; nothing where they touch
    /// the same bytes, or one changes what the other is about.
    pub fn beside(&self, other: &Damaged) -> Option<Damaged> {
        let (a, b) = (&self.damage, &other.damage);
        let apart = a
            .edits
            .iter()
            .all(|e| b.edits.iter().all(|f| e.is_apart(f)));
        let moved_twice = a.moves.is_some() && a.moves == b.moves;
        if !apart || moved_twice || !a.pairs || !b.pairs {
            return None;
        }
        let earlier = if a.order <= b.order { a } else { b };
        let mut damage = earlier.clone();
        damage.edits = a.edits.iter().chain(&b.edits).cloned().collect();
        let faults = self.faults.iter().chain(&other.faults).copied();
        Some(Damaged {
            damage,
            faults: faults.collect(),
        })
    }
}

impl Damage {
    fn new(place: usize, order: Order) -> Damage {
        Damage {
            edits: Vec::new(),
            place,
            order,
            pairs: true,
            moves: None,
        }
    }

    fn alone(mut self) -> Damage {
        self.pairs = false;
        self
    }

    fn moving(mut self, sub_block: usize) -> Damage {
        self.moves = Some(sub_block);
        self
    }

    fn int(self, at: usize, value: i32) -> Damage {
        self.write(at, &value.to_le_bytes())
    }

    fn long(self, at: usize, value: i64) -> Damage {
        self.write(at, &value.to_le_bytes())
    }

    fn write(mut self, at: usize, bytes: &[u8]) -> Damage {
        let bytes = bytes.to_vec();
        self.edits.push(Edit::Write { at, bytes });
        self
    }

    fn cut(mut self, length: usize) -> Damage {
        self.edits.push(Edit::Cut { length });
        self
    }

    fn append(mut self, bytes: Vec<u8>) -> Damage {
        self.edits.push(Edit::Append { bytes });
        self
    }
}
