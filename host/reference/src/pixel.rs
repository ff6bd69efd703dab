//! Pixel types.

/// The bytes of a pixel by type, or nothing for a type that is not listed.
/// (12 and 13 are only planned in source document 000.)
pub fn bytes_a_pixel(pixel_type: i64) -> Option<u64> {
    match pixel_type {
        0 => Some(1),
        1 => Some(2),
        2 => Some(4),
        3 => Some(3),
        4 => Some(6),
        8 => Some(12),
        9 => Some(4),
        10 => Some(8),
        11 => Some(24),
        _ => None,
    }
}
