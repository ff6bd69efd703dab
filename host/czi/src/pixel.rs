//! Pixel types.

/// The pixel types that are listed in docs/RULES.md.
#[derive(Clone, Copy, Debug, PartialEq, Eq)]
pub enum PixelType {
    /// 0: one byte.
    Gray8,
    /// 1: two bytes.
    Gray16,
    /// 2: a 32-bit float.
    GrayFloat,
    /// 3: three bytes.
    Bgr24,
    /// 4: three of two bytes.
    Bgr48,
    /// 8: three 32-bit floats.
    BgrFloat,
    /// 9: four bytes.
    Bgra32,
    /// 10: two 32-bit floats.
    GrayComplex,
    /// 11: three of two 32-bit floats.
    BgrComplex,
}

impl PixelType {
    /// All of them.
    pub const ALL: [PixelType; 9] = [
        PixelType::Gray8,
        PixelType::Gray16,
        PixelType::GrayFloat,
        PixelType::Bgr24,
        PixelType::Bgr48,
        PixelType::BgrFloat,
        PixelType::Bgra32,
        PixelType::GrayComplex,
        PixelType::BgrComplex,
    ];

    /// The number in the file.
    pub fn number(self) -> u32 {
        match self {
            PixelType::Gray8 => 0,
            PixelType::Gray16 => 1,
            PixelType::GrayFloat => 2,
            PixelType::Bgr24 => 3,
            PixelType::Bgr48 => 4,
            PixelType::BgrFloat => 8,
            PixelType::Bgra32 => 9,
            PixelType::GrayComplex => 10,
            PixelType::BgrComplex => 11,
        }
    }

    /// The type of that number, if one is listed.
    pub fn of_number(number: u64) -> Option<PixelType> {
        PixelType::ALL
            .into_iter()
            .find(|t| u64::from(t.number()) == number)
    }

    /// The bytes of a pixel.
    pub fn bytes(self) -> usize {
        match self {
            PixelType::Gray8 => 1,
            PixelType::Gray16 => 2,
            PixelType::GrayFloat => 4,
            PixelType::Bgr24 => 3,
            PixelType::Bgr48 => 6,
            PixelType::BgrFloat => 12,
            PixelType::Bgra32 => 4,
            PixelType::GrayComplex => 8,
            PixelType::BgrComplex => 24,
        }
    }
}
