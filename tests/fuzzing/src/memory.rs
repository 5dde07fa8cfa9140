//! Pages with inaccessible ones around them, and numbers that two processes
//! share. The other module with an `unsafe` of its own is `process`.

use std::ffi::{c_int, c_void};
use std::ptr;
use std::slice;
use std::sync::atomic::AtomicU64;

/// A page of x86-64, for which the library is built.
const PAGE: usize = 4_096;
pub const WORDS_OF_A_PAGE: usize = PAGE / size_of::<u32>();

const INACCESSIBLE: c_int = 0;
const READ_AND_WRITE: c_int = 1 | 2;
const SHARED: c_int = 0x01;
const PRIVATE: c_int = 0x02;
const ANONYMOUS: c_int = 0x20;

extern "C" {
    fn mmap(
        address: *mut c_void,
        length: usize,
        protection: c_int,
        flags: c_int,
        file: c_int,
        offset: i64,
    ) -> *mut c_void;

    fn mprotect(address: *mut c_void, length: usize, protection: c_int) -> c_int;
}

/// Pages of which at least `words` words, all 0, can be accessed, and neither
/// the page in front of them nor the one behind.
pub fn fenced(words: usize) -> &'static mut [u32] {
    let bytes = size_of::<u32>() * words.next_multiple_of(WORDS_OF_A_PAGE);
    let start = map(bytes + 2 * PAGE, INACCESSIBLE, PRIVATE);
    // SAFETY: the pages lie within a mapping that is new and stays for good, so
    // nothing else refers to them. Bytes that are 0 are words.
    unsafe {
        let first = start.add(PAGE);
        let done = mprotect(first.cast(), bytes, READ_AND_WRITE);
        assert_eq!(done, 0, "pages that can't be made accessible");
        slice::from_raw_parts_mut(first.cast(), bytes / size_of::<u32>())
    }
}

/// Numbers, all 0, that this process has in common with its children.
pub fn shared(length: usize) -> &'static [AtomicU64] {
    let bytes = size_of::<AtomicU64>() * length;
    let start = map(bytes, READ_AND_WRITE, SHARED);
    // SAFETY: as above, and all who refer to them do so by atomics.
    unsafe { slice::from_raw_parts(start.cast(), length) }
}

fn map(bytes: usize, protection: c_int, sharing: c_int) -> *mut u8 {
    let flags = sharing | ANONYMOUS;
    // SAFETY: a mapping at a place of the system's choice takes nothing away.
    let start = unsafe { mmap(ptr::null_mut(), bytes, protection, flags, -1, 0) };
    assert_ne!(start as isize, -1, "no memory can be mapped");
    start.cast()
}
