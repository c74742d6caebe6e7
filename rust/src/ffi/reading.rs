//! Calls that read a buffer.

use super::{First, Looked, Next, Outcome};
use crate::{Numbers, Place};

unsafe extern "C" {
    fn strumblay_check(buf: *const u8, len: usize, n: Sizes) -> u64;
    fn strumblay_contains(buf: *const u8, len: usize, n: Sizes, hash: u64) -> Looked;
    fn strumblay_contains_quick(buf: *const u8, len: usize, n: Sizes, hash: u64) -> Looked;
    fn strumblay_count(buf: *const u8, len: usize, n: Sizes, hash: u64) -> Outcome;
    fn strumblay_count_quick(buf: *const u8, len: usize, n: Sizes, hash: u64) -> Outcome;
    fn strumblay_list_begin(buf: *const u8, len: usize, n: Sizes) -> First;
    fn strumblay_list_step(buf: *const u8, len: usize, n: Sizes, place: Place) -> Next;
}

/// A record without its family, which no reading asks for: small enough to travel in registers.
#[repr(C)]
struct Sizes {
    len: u64,
    qbits: u8,
    rbits: u8,
    max_qbits: u8,
}

impl From<Numbers> for Sizes {
    #[inline]
    fn from(n: Numbers) -> Sizes {
        Sizes { len: n.len, qbits: n.qbits, rbits: n.rbits, max_qbits: n.max_qbits }
    }
}

/// 0 if the filter is sound, else the lowest of 1 to 6 that is due.
#[inline]
pub fn check(buf: &[u8], n: Numbers) -> u64 {
    unsafe { strumblay_check(buf.as_ptr(), buf.len(), n.into()) }
}

/// Whether a fingerprint is held, checked.
#[inline]
pub fn contains(buf: &[u8], n: Numbers, hash: u64) -> Looked {
    unsafe { strumblay_contains(buf.as_ptr(), buf.len(), n.into(), hash) }
}

/// Whether a fingerprint is held, quick.
#[inline]
pub fn contains_quick(buf: &[u8], n: Numbers, hash: u64) -> Looked {
    unsafe { strumblay_contains_quick(buf.as_ptr(), buf.len(), n.into(), hash) }
}

/// How often a fingerprint is held, checked.
#[inline]
pub fn count(buf: &[u8], n: Numbers, hash: u64) -> Outcome {
    unsafe { strumblay_count(buf.as_ptr(), buf.len(), n.into(), hash) }
}

/// How often a fingerprint is held, quick.
#[inline]
pub fn count_quick(buf: &[u8], n: Numbers, hash: u64) -> Outcome {
    unsafe { strumblay_count_quick(buf.as_ptr(), buf.len(), n.into(), hash) }
}

/// Where a listing begins, checked.
#[inline]
pub fn list_begin(buf: &[u8], n: Numbers) -> First {
    unsafe { strumblay_list_begin(buf.as_ptr(), buf.len(), n.into()) }
}

/// A step of a listing, which asks 1 to 5.
#[inline]
pub fn list_step(buf: &[u8], n: Numbers, place: Place) -> Next {
    unsafe { strumblay_list_step(buf.as_ptr(), buf.len(), n.into(), place) }
}
