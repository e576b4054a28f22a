//! The library's functions, as include/imjauska.h declares them.

use crate::lent::Lent;
use independent::set::Reply;

#[repr(C)]
struct Set {
    _opaque: [u8; 0],
}

extern "C" {
    fn imjauska_set_size() -> usize;
    fn imjauska_set_align() -> usize;
    fn imjauska_is_current(saved: *const u8, length: usize) -> u8;
    fn imjauska_new(set: *mut Set);
    fn imjauska_step(
        set: *mut Set,
        entry: *const u8,
        entry_length: usize,
        buffer: *mut u8,
        buffer_length: usize,
        count: *mut usize,
    ) -> u8;
}

/// What stands beside the count, before and behind it.
const BESIDE: usize = 0x5aa5_5aa5;

pub fn set_size() -> usize {
    unsafe { imjauska_set_size() }
}

pub fn set_align() -> usize {
    unsafe { imjauska_set_align() }
}

pub fn is_current(saved: &[u8]) -> u8 {
    unsafe { imjauska_is_current(saved.as_ptr(), saved.len()) }
}

/// A new set in memory that held `before` throughout.
pub fn new_set(before: u8) -> Lent {
    let mut set = Lent::new(&vec![before; set_size()]);
    make_new(&mut set);
    set
}

pub fn make_new(set: &mut Lent) {
    assert_eq!(set.bytes().len(), set_size());
    unsafe { imjauska_new(set.bytes_mut().as_mut_ptr().cast()) }
}

/// Nothing if the count was not written alone.
pub fn step(set: &mut Lent, entry: &[u8], buffer: &mut [u8]) -> Option<Reply> {
    assert_eq!(set.bytes().len(), set_size());
    step_at(set, slice(entry), (buffer.as_mut_ptr(), buffer.len()))
}

/// The same with NULL for the entry and the buffer, of length 0 each.
pub fn step_null(set: &mut Lent) -> Option<Reply> {
    step_at(set, (std::ptr::null(), 0), (std::ptr::null_mut(), 0))
}

/// The same with NULL for the buffer alone.
pub fn step_no_buffer(set: &mut Lent, entry: &[u8]) -> Option<Reply> {
    step_at(set, slice(entry), (std::ptr::null_mut(), 0))
}

fn slice(bytes: &[u8]) -> (*const u8, usize) {
    (bytes.as_ptr(), bytes.len())
}

fn step_at(set: &mut Lent, entry: (*const u8, usize), buffer: (*mut u8, usize)) -> Option<Reply> {
    let mut counts = [BESIDE, usize::MAX, BESIDE];
    let refusal = unsafe {
        imjauska_step(
            set.bytes_mut().as_mut_ptr().cast(),
            entry.0,
            entry.1,
            buffer.0,
            buffer.1,
            counts.as_mut_ptr().add(1),
        )
    };
    let [before, count, behind] = counts;
    (before == BESIDE && behind == BESIDE).then_some(Reply { refusal, count })
}
