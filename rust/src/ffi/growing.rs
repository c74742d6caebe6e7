//! Calls that may write a second buffer.

use super::{Changed, SpareAnswer};
use crate::Numbers;

unsafe extern "C" {
    fn strumblay_grow(
        buf: *const u8,
        len: usize,
        n: Numbers,
        dest: *mut u8,
        dest_len: usize,
    ) -> Changed;
    fn strumblay_merge(
        buf: *const u8,
        len: usize,
        n: Numbers,
        other: *const u8,
        other_len: usize,
        other_n: Numbers,
        keep_duplicates: u64,
        dest: *mut u8,
        dest_len: usize,
    ) -> Changed;
    fn strumblay_insert_spare(
        buf: *mut u8,
        len: usize,
        n: Numbers,
        hash: u64,
        max_count: u64,
        spare: *mut u8,
        spare_len: usize,
    ) -> SpareAnswer;
    fn strumblay_insert_spare_quick(
        buf: *mut u8,
        len: usize,
        n: Numbers,
        hash: u64,
        max_count: u64,
        spare: *mut u8,
        spare_len: usize,
    ) -> SpareAnswer;
}

/// The same holding with one bit of quotient more, written to `dest`.
#[inline]
pub fn grow(buf: &[u8], n: Numbers, dest: &mut [u8]) -> Changed {
    let (at, len) = (dest.as_mut_ptr(), dest.len());
    unsafe { strumblay_grow(buf.as_ptr(), buf.len(), n, at, len) }
}

/// Both holdings, written to `dest`.
#[inline]
pub fn merge(
    (buf, n): (&[u8], Numbers),
    (other, other_n): (&[u8], Numbers),
    keep: bool,
    dest: &mut [u8],
) -> Changed {
    let (mine, theirs, to) = (buf.as_ptr(), other.as_ptr(), dest.as_mut_ptr());
    let keep = u64::from(keep);
    unsafe {
        strumblay_merge(mine, buf.len(), n, theirs, other.len(), other_n, keep, to, dest.len())
    }
}

/// As `insert`, in `spare` if it must grow.
#[inline]
pub fn insert_spare(
    buf: &mut [u8],
    n: Numbers,
    hash: u64,
    max_count: u64,
    spare: &mut [u8],
) -> SpareAnswer {
    let (old, new) = (buf.as_mut_ptr(), spare.as_mut_ptr());
    unsafe { strumblay_insert_spare(old, buf.len(), n, hash, max_count, new, spare.len()) }
}

/// As `insert_quick`, in `spare` if it must grow.
#[inline]
pub fn insert_spare_quick(
    buf: &mut [u8],
    n: Numbers,
    hash: u64,
    max_count: u64,
    spare: &mut [u8],
) -> SpareAnswer {
    let (old, new) = (buf.as_mut_ptr(), spare.as_mut_ptr());
    unsafe { strumblay_insert_spare_quick(old, buf.len(), n, hash, max_count, new, spare.len()) }
}
