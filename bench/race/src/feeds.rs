//! Line feeds, found in two ways: what the walk, which looks at little else, is held against.

use std::ffi::{c_int, c_void};

/// Counted in a loop over the bytes.
pub fn counted(text: &[u8]) -> usize {
    text.iter().filter(|&&byte| byte == b'\n').count()
}

extern "C" {
    fn memchr(bytes: *const c_void, byte: c_int, length: usize) -> *const c_void;
}

/// From line to line by the C library's `memchr`.
#[allow(unsafe_code)]
pub fn sought(text: &[u8]) -> usize {
    let (mut rest, mut feeds) = (text, 0);
    loop {
        // SAFETY: pointer and length are those of a slice.
        let found = unsafe { memchr(rest.as_ptr().cast(), c_int::from(b'\n'), rest.len()) };
        if found.is_null() {
            return feeds;
        }
        rest = &rest[found as usize - rest.as_ptr() as usize + 1..];
        feeds += 1;
    }
}
