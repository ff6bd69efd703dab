//! The proved library's equal ranges, which libczi.a has no function for: crates/probe lends them.

/// Whether libprobe.a was there as this was built.
pub const LINKED: bool = cfg!(probe);

#[cfg(probe)]
extern "C" {
    fn probe_same(a: *const u8, a_len: usize, b: *const u8, b_len: usize) -> bool;
}

/// Whether the two slices hold the same bytes.
#[cfg(probe)]
pub fn same(a: &[u8], b: &[u8]) -> bool {
    // SAFETY: each pointer goes with its slice's length; the function reads these bytes and keeps nothing.
    unsafe { probe_same(a.as_ptr(), a.len(), b.as_ptr(), b.len()) }
}

/// Stands for it where there is none, and is not called.
#[cfg(not(probe))]
pub fn same(_: &[u8], _: &[u8]) -> bool {
    unreachable!("libprobe.a was not there")
}
