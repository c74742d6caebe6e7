//! Lookup, count and listing.

use super::{refused, unless_refused, value_of};
use crate::model::{Numbers, Place};
use strumblay::ffi;

/// Whether it is held, and how many remainders were compared.
pub fn contains(quick: bool, buf: &[u8], n: Numbers, hash: u64) -> Result<(bool, u64), u64> {
    let ask = if quick { ffi::contains_quick } else { ffi::contains };
    let got = ask(buf, n, hash);
    let alone = got.held == 0 && got.compared == 0;
    unless_refused(got.number, alone, (got.held == 1, got.compared))
}

/// How often it is held.
pub fn count(quick: bool, buf: &[u8], n: Numbers, hash: u64) -> Result<u64, u64> {
    let ask = if quick { ffi::count_quick } else { ffi::count };
    value_of(ask(buf, n, hash))
}

/// The place where a listing begins, checked.
pub fn list_begin(buf: &[u8], n: Numbers) -> Result<Place, u64> {
    let got = ffi::list_begin(buf, n);
    unless_refused(got.number, got.place == Place::default(), got.place)
}

/// The fingerprint, or none when done, and the place afterwards; a refusal leaves the place.
pub fn list_step(buf: &[u8], n: Numbers, place: Place) -> Result<(Option<u64>, Place), u64> {
    let got = ffi::list_step(buf, n, place);
    match (got.number, got.found) {
        (0, 1) => Ok((Some(got.fingerprint), got.place)),
        (0, 0) if got.fingerprint == 0 => Ok((None, got.place)),
        (number, found) => {
            Err(refused(number, found == 0 && got.fingerprint == 0 && got.place == place))
        }
    }
}
