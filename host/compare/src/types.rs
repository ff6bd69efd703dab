//! Bytes a pixel, of the listed types and of numbers that are none.

use crate::report::Report;
use czi::calls;
use reference::bytes_a_pixel;

/// Every number of 16 bits, and the greatest ones.
pub fn check(report: &mut Report) {
    report.at("bytes a pixel", &[]);
    for number in (0..1 << 16).chain([1 << 31, u32::MAX]) {
        let wanted = bytes_a_pixel(number.into()).unwrap_or(0);
        let got = u64::from(calls::pixel_bytes(number));
        report.compare(&format!("type {number}"), &got, &wanted);
    }
}
