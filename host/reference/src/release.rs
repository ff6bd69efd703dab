//! Releases of the format: paper 02, Req 05.

/// The release that the caller says.
#[derive(Clone, Copy, Debug, PartialEq, Eq)]
pub enum Release {
    /// 1.2, source document 000.
    V1_2,
    /// 1.02, source document 001, which has no chunk container section.
    V1_02,
}

impl Release {
    /// Both.
    pub const ALL: [Release; 2] = [Release::V1_2, Release::V1_02];
}
