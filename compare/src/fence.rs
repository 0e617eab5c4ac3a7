//! Octets between two pages that nobody may touch: a program that reads or writes
//! past either end of them stops at once, whatever language it was written in.

use std::ffi::{c_int, c_long, c_void};

extern "C" {
    fn mmap(
        at: *mut c_void,
        n: usize,
        protection: c_int,
        flags: c_int,
        file: c_int,
        offset: c_long,
    ) -> *mut c_void;
    fn mprotect(at: *mut c_void, n: usize, protection: c_int) -> c_int;
}

const PAGE: usize = 4096;
const NO_ACCESS: c_int = 0;
const READ_WRITE: c_int = 3;
/// Private, and of no file.
const ANONYMOUS: c_int = 0x22;

/// Whole pages with a fence before and after them. They are kept to the end of the
/// program.
pub struct Fenced {
    octets: &'static mut [u8],
}

impl Fenced {
    /// Room for so many octets.
    pub fn new(octets: usize) -> Fenced {
        let room = octets.div_ceil(PAGE) * PAGE;
        // SAFETY: new pages of no file; those in the middle may be read and written
        // and are named by nothing else.
        let octets = unsafe {
            let fence = mmap(std::ptr::null_mut(), room + 2 * PAGE, NO_ACCESS, ANONYMOUS, -1, 0);
            assert!(fence as isize != -1, "there are pages");
            let first = fence.cast::<u8>().add(PAGE);
            assert_eq!(mprotect(first.cast(), room, READ_WRITE), 0);
            std::slice::from_raw_parts_mut(first, room)
        };
        Fenced { octets }
    }

    /// So many octets that end at the fence, and begin at one if they fill their pages.
    pub fn last(&mut self, count: usize) -> &mut [u8] {
        let room = self.octets.len();
        &mut self.octets[room - count..]
    }
}
