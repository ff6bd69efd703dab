//! Lent buffers, with objects around them that nobody lent.

/// So many before and behind, which no call may change.
const AROUND: usize = 48;

/// What a buffer holds before a call: by place and salt, no two neighbours alike.
pub trait Pattern: Copy + Eq {
    /// The one at that place.
    fn at(place: usize, salt: u64) -> Self;
}

impl Pattern for u8 {
    fn at(place: usize, salt: u64) -> u8 {
        (place as u8).wrapping_mul(29) ^ salt as u8
    }
}

impl Pattern for u64 {
    fn at(place: usize, salt: u64) -> u64 {
        (place as u64).wrapping_mul(0x9E37_79B9_7F4A_7C15) ^ salt
    }
}

impl Pattern for i32 {
    fn at(place: usize, salt: u64) -> i32 {
        u64::at(place, salt) as i32
    }
}

/// A buffer filled with a pattern; its middle is lent.
#[derive(Clone, Debug, PartialEq, Eq)]
pub struct Lent<T> {
    all: Vec<T>,
    first: usize,
    length: usize,
}

impl<T: Pattern> Lent<T> {
    /// A buffer of that length; `salt` decides the pattern and where it begins.
    pub fn new(length: usize, salt: u64) -> Lent<T> {
        let first = AROUND + (salt % 16) as usize;
        let places = 0..first + length + AROUND;
        Lent {
            all: places.map(|place| T::at(place, salt)).collect(),
            first,
            length,
        }
    }

    /// What is lent.
    pub fn lend(&mut self) -> &mut [T] {
        &mut self.all[self.first..self.first + self.length]
    }

    /// What was lent.
    pub fn lent(&self) -> &[T] {
        &self.all[self.first..self.first + self.length]
    }

    /// Makes it as the other, of the same shape, is.
    pub fn copy(&mut self, other: &Lent<T>) {
        self.all.copy_from_slice(&other.all);
    }

    /// Where two of one shape differ first, counted in what is lent.
    pub fn difference(&self, other: &Lent<T>) -> Option<i64> {
        if self.all == other.all {
            return None;
        }
        let pairs = self.all.iter().zip(&other.all);
        let at = pairs.into_iter().position(|(a, b)| a != b)?;
        Some(at as i64 - self.first as i64)
    }
}

/// The target and the map of a question.
#[derive(Clone, Debug, PartialEq, Eq)]
pub struct Buffers {
    /// The target.
    pub target: Lent<u8>,
    /// The map.
    pub map: Lent<u8>,
}

impl Buffers {
    /// Both with a pattern.
    pub fn new(target: usize, map: usize, salt: u64) -> Buffers {
        Buffers {
            target: Lent::new(target, salt),
            map: Lent::new(map, salt >> 8),
        }
    }

    /// Makes both as those of the other, of the same shape, are.
    pub fn copy(&mut self, other: &Buffers) {
        self.target.copy(&other.target);
        self.map.copy(&other.map);
    }

    /// Where they differ first.
    pub fn difference(&self, other: &Buffers) -> Option<String> {
        let of = |name: &str, at: Option<i64>| at.map(|at| format!("{name} differs at {at}"));
        let target = of("target", self.target.difference(&other.target));
        target.or_else(|| of("map", self.map.difference(&other.map)))
    }
}

/// The target and the map of a question, and the sheet of a quote.
#[derive(Clone, Debug, PartialEq, Eq)]
pub struct Sheeted {
    /// The target and the map.
    pub buffers: Buffers,
    /// The sheet.
    pub sheet: Lent<u8>,
}

impl Sheeted {
    /// All with a pattern.
    pub fn new(target: usize, map: usize, sheet: usize, salt: u64) -> Sheeted {
        Sheeted {
            buffers: Buffers::new(target, map, salt),
            sheet: Lent::new(sheet, salt >> 16),
        }
    }

    /// Makes all as those of the other, of the same shape, are.
    pub fn copy(&mut self, other: &Sheeted) {
        self.buffers.copy(&other.buffers);
        self.sheet.copy(&other.sheet);
    }

    /// Where they differ first.
    pub fn difference(&self, other: &Sheeted) -> Option<String> {
        let sheet = self.sheet.difference(&other.sheet);
        let of_sheet = || sheet.map(|at| format!("sheet differs at {at}"));
        self.buffers.difference(&other.buffers).or_else(of_sheet)
    }
}

/// What stands before settings and behind them, and would change what they say.
const BEFORE: [&[u8]; 4] = [b",", b"\n", b"edition=1\n", b"\0"];
const BEHIND: [&[u8]; 8] = [
    b"\n",
    b"\n",
    b"masks=on\n",
    b"masks=off\n",
    b",",
    b"0\n",
    b".5\n",
    b"=1\n",
];

/// Bytes that are lent to be read, with others around them that nobody lent.
pub struct Enclosed {
    all: Vec<u8>,
    first: usize,
    length: usize,
    /// As they were.
    copy: Vec<u8>,
}

impl Enclosed {
    /// Settings among what would change them.
    pub fn new(settings: &[u8], salt: u64) -> Enclosed {
        let before = BEFORE[salt as usize % BEFORE.len()].repeat(4);
        let behind = BEHIND[(salt >> 8) as usize % BEHIND.len()].repeat(4);
        let all = [&before, settings, &behind].concat();
        Enclosed {
            copy: all.clone(),
            all,
            first: before.len(),
            length: settings.len(),
        }
    }

    /// What is lent.
    pub fn part(&self) -> &[u8] {
        &self.all[self.first..self.first + self.length]
    }

    /// Is everything as it was?
    pub fn is_as_lent(&self) -> bool {
        self.all == self.copy
    }
}

#[cfg(test)]
mod tests {
    use super::*;

    #[test]
    fn settings_are_lent_among_bytes_that_are_not() {
        for salt in 0..4096 {
            let mut enclosed = Enclosed::new(b"edition=1", salt);
            assert_eq!(enclosed.part(), b"edition=1");
            assert!(enclosed.is_as_lent());
            let last = enclosed.first + enclosed.length;
            assert!(enclosed.first > 0 && last < enclosed.all.len());
            let changed = [0, enclosed.first, last - 1, last][salt as usize % 4];
            enclosed.all[changed] ^= 1;
            assert!(!enclosed.is_as_lent());
        }
    }

    #[test]
    fn a_difference_of_the_sheet_is_said() {
        let lent = Sheeted::new(3, 1, 49, 7);
        let mut other = lent.clone();
        assert_eq!(lent.difference(&other), None);
        other.sheet.lend()[48] ^= 1;
        let said = lent.difference(&other);
        assert_eq!(said.as_deref(), Some("sheet differs at 48"));
        other.copy(&lent);
        assert_eq!(lent, other);
    }
}
