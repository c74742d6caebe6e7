//! Fresh filters, insert, remove, growth, merge, and insert with a spare.

use super::{change_of, unless_refused};
use crate::model::{Fresh, Numbers, Widths};
use strumblay::ffi;

/// The answer and the record; on a refusal the record must be the widths and the family given, with
/// len 0.
pub fn fresh(fresh: Fresh, buf: &mut [u8]) -> Result<(u64, Numbers), u64> {
    let Fresh { widths: Widths { qbits, rbits, max_qbits }, family } = fresh;
    change_of(ffi::fresh(fresh, buf), Numbers { len: 0, qbits, rbits, max_qbits, family })
}

/// How many were held before, and the record afterwards.
pub fn insert(
    quick: bool,
    buf: &mut [u8],
    n: Numbers,
    hash: u64,
    max_count: u64,
) -> Result<(u64, Numbers), u64> {
    let ask = if quick { ffi::insert_quick } else { ffi::insert };
    change_of(ask(buf, n, hash, max_count), n)
}

/// 1 if one copy was removed, 0 if absent; and the record afterwards.
pub fn remove(quick: bool, buf: &mut [u8], n: Numbers, hash: u64) -> Result<(u64, Numbers), u64> {
    let ask = if quick { ffi::remove_quick } else { ffi::remove };
    change_of(ask(buf, n, hash), n)
}

/// The record of the grown filter.
pub fn grow(buf: &[u8], n: Numbers, dest: &mut [u8]) -> Result<Numbers, u64> {
    change_of(ffi::grow(buf, n, dest), n).map(|(_, numbers)| numbers)
}

/// The record of the merged filter.
pub fn merge(
    mine: (&[u8], Numbers),
    other: (&[u8], Numbers),
    keep: bool,
    dest: &mut [u8],
) -> Result<Numbers, u64> {
    change_of(ffi::merge(mine, other, keep, dest), mine.1).map(|(_, numbers)| numbers)
}

/// How many were held before, whether the spare counts now, and the record.
pub fn insert_spare(
    quick: bool,
    (buf, n): (&mut [u8], Numbers),
    hash: u64,
    max_count: u64,
    spare: &mut [u8],
) -> Result<(u64, bool, Numbers), u64> {
    let ask = if quick { ffi::insert_spare_quick } else { ffi::insert_spare };
    let got = ask(buf, n, hash, max_count, spare);
    let alone = got.answer == 0 && got.in_spare == 0 && got.numbers == n;
    unless_refused(got.number, alone, (got.answer, got.in_spare == 1, got.numbers))
}
