//! Zeroed buffers, large ones on large pages of memory.

/// A buffer of zeros. Records of a table stand two small pages apart and more, so that a call which looks at every record waits for the processor's list of
/// pages; a buffer of several large pages therefore asks for them. Nothing depends on whether it is given any.
pub(crate) fn zeroed(bytes: usize) -> Box<[u8]> {
    let buffer = vec![0; bytes].into_boxed_slice();
    ask_for_large_pages(&buffer);
    buffer
}

#[cfg(target_os = "linux")]
fn ask_for_large_pages(buffer: &[u8]) {
    use std::ffi::{c_int, c_void};

    extern "C" {
        fn madvise(start: *mut c_void, length: usize, advice: c_int) -> c_int;
    }
    const LARGE_PAGE: usize = 2 << 20;
    const MADV_HUGEPAGE: c_int = 14;

    let start = buffer.as_ptr() as usize;
    let first = (start + LARGE_PAGE - 1) / LARGE_PAGE * LARGE_PAGE;
    let end = (start + buffer.len()) / LARGE_PAGE * LARGE_PAGE;
    if first < end {
        // SAFETY: the pages from `first` to `end` lie inside the buffer, and the advice changes nothing of what they hold.
        unsafe { madvise(first as *mut c_void, end - first, MADV_HUGEPAGE) };
    }
}

#[cfg(not(target_os = "linux"))]
fn ask_for_large_pages(_: &[u8]) {}
