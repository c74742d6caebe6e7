//! Calls that write one buffer.

use super::Changed;
use crate::{Fresh, Numbers, Widths};

unsafe extern "C" {
    fn strumblay_fresh(q: u8, r: u8, max: u8, family: u64, buf: *mut u8, len: usize) -> Changed;
    fn strumblay_insert(b: *mut u8, len: usize, n: Numbers, hash: u64, max: u64) -> Changed;
    fn strumblay_insert_quick(b: *mut u8, len: usize, n: Numbers, hash: u64, max: u64) -> Changed;
    fn strumblay_remove(buf: *mut u8, len: usize, n: Numbers, hash: u64) -> Changed;
    fn strumblay_remove_quick(buf: *mut u8, len: usize, n: Numbers, hash: u64) -> Changed;
}

/// Makes the buffer an empty filter.
#[inline]
pub fn fresh(fresh: Fresh, buf: &mut [u8]) -> Changed {
    let Fresh { widths: Widths { qbits, rbits, max_qbits }, family } = fresh;
    unsafe { strumblay_fresh(qbits, rbits, max_qbits, family, buf.as_mut_ptr(), buf.len()) }
}

/// One copy more if fewer than max_count are held, checked; answers the smaller of the two.
#[inline]
pub fn insert(buf: &mut [u8], n: Numbers, hash: u64, max_count: u64) -> Changed {
    unsafe { strumblay_insert(buf.as_mut_ptr(), buf.len(), n, hash, max_count) }
}

/// One copy more if fewer than max_count are held, quick; answers the smaller of the two.
#[inline]
pub fn insert_quick(buf: &mut [u8], n: Numbers, hash: u64, max_count: u64) -> Changed {
    unsafe { strumblay_insert_quick(buf.as_mut_ptr(), buf.len(), n, hash, max_count) }
}

/// One copy fewer, checked; answers 1 if there was one, else 0.
#[inline]
pub fn remove(buf: &mut [u8], n: Numbers, hash: u64) -> Changed {
    unsafe { strumblay_remove(buf.as_mut_ptr(), buf.len(), n, hash) }
}

/// One copy fewer, quick; answers 1 if there was one, else 0.
#[inline]
pub fn remove_quick(buf: &mut [u8], n: Numbers, hash: u64) -> Changed {
    unsafe { strumblay_remove_quick(buf.as_mut_ptr(), buf.len(), n, hash) }
}
