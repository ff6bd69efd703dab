//! Names of pixel types.

use crate::arguments::number;
use crate::failure::Failure;
use czi::PixelType;

const NAMES: [(&str, PixelType); 9] = [
    ("gray8", PixelType::Gray8),
    ("gray16", PixelType::Gray16),
    ("grayfloat", PixelType::GrayFloat),
    ("bgr24", PixelType::Bgr24),
    ("bgr48", PixelType::Bgr48),
    ("bgrfloat", PixelType::BgrFloat),
    ("bgra32", PixelType::Bgra32),
    ("graycomplex", PixelType::GrayComplex),
    ("bgrcomplex", PixelType::BgrComplex),
];

/// The name of a type.
pub fn name(listed: PixelType) -> &'static str {
    let found = NAMES.iter().find(|(_, named)| *named == listed);
    found.map_or("", |(name, _)| name)
}

/// The number that a name in any case, or a number, stands for; it need not be
/// a listed one.
pub fn parse(word: &str) -> Result<u32, Failure> {
    let named = |(name, _): &&(&str, PixelType)| name.eq_ignore_ascii_case(word);
    match NAMES.iter().find(named) {
        Some((_, listed)) => Ok(listed.number()),
        None => number(word, "--type").map_err(|_| {
            let names: Vec<&str> = NAMES.iter().map(|(name, _)| *name).collect();
            let names = names.join(", ");
            Failure::Usage(format!(
                "--type is a number or one of {names}, not {word:?}"
            ))
        }),
    }
}

/// The bytes of a pixel; 0 for a type that is not listed.
pub fn bytes(pixel_type: u32) -> usize {
    PixelType::of_number(pixel_type.into()).map_or(0, PixelType::bytes)
}

#[cfg(test)]
mod tests {
    use super::*;

    #[test]
    fn every_type_has_a_name_that_comes_back() {
        for listed in PixelType::ALL {
            assert_eq!(parse(name(listed)).unwrap(), listed.number());
            assert_eq!(
                parse(&name(listed).to_uppercase()).unwrap(),
                listed.number()
            );
        }
        assert_eq!(parse("77").unwrap(), 77);
        assert!(parse("").is_err() && parse("gray").is_err());
    }
}
