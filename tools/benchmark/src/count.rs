//! Counts the instructions of one call, where valgrind's callgrind runs this program (count.c): what load does not change.

use crate::race::Side;
use std::ffi::CString;
use std::os::raw::c_char;

extern "C" {
    fn count_begin();
    fn count_end(label: *const c_char);
}

/// Counts a call that is not the first, and leaves the count under a label.
pub fn count(label: &str, side: &mut Side) {
    let label = CString::new(label).expect("a label without zeros");
    side.once();
    unsafe { count_begin() };
    side.once();
    unsafe { count_end(label.as_ptr()) };
}
