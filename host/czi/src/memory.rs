//! Memory that the wrapper takes itself.

use crate::refusal::Refusal;
use std::fmt;

/// Why something was not made in memory of its own: a plane, or a repacked file.
#[derive(Clone, Copy, Debug, PartialEq, Eq)]
pub enum NotMade {
    /// The question or the file was refused.
    Refused(Refusal),
    /// There is no memory for so many bytes.
    Memory(u64),
}

impl From<Refusal> for NotMade {
    fn from(refusal: Refusal) -> NotMade {
        NotMade::Refused(refusal)
    }
}

impl fmt::Display for NotMade {
    fn fmt(&self, f: &mut fmt::Formatter<'_>) -> fmt::Result {
        match self {
            NotMade::Refused(refusal) => refusal.fmt(f),
            NotMade::Memory(bytes) => write!(f, "there is no memory for {bytes} bytes"),
        }
    }
}

impl std::error::Error for NotMade {}

/// So many zero bytes.
pub(crate) fn zeros(length: u64) -> Result<Vec<u8>, NotMade> {
    let short = NotMade::Memory(length);
    let length = usize::try_from(length).map_err(|_| short)?;
    let mut bytes = Vec::new();
    bytes.try_reserve_exact(length).map_err(|_| short)?;
    bytes.resize(length, 0);
    Ok(bytes)
}

#[cfg(test)]
mod tests {
    use super::{zeros, NotMade};

    #[test]
    fn too_much_memory_is_said_and_not_taken() {
        assert_eq!(zeros(3), Ok(vec![0; 3]));
        let short = zeros(u64::MAX).unwrap_err();
        assert_eq!(short, NotMade::Memory(u64::MAX));
        let words = "there is no memory for 18446744073709551615 bytes";
        assert_eq!(short.to_string(), words);
    }
}
