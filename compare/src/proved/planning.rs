//! Select, planning and lengths.

use super::{unless_refused, value_of};
use crate::model::planning::bits;
use crate::model::{Specs, Widths};
use strumblay::ffi;

/// The position of the n-th one; 64 stands for none.
pub fn select(x: u64, n: u64) -> Option<u64> {
    Some(ffi::strumblay_select(x, n)).filter(|&place| place != 64)
}

/// The slots for a capacity.
pub fn slots_for(capacity: u64) -> Result<u64, u64> {
    value_of(ffi::strumblay_slots_for(capacity))
}

/// The specs for a capacity and a rate.
pub fn filter_specs(capacity: u64, rate: f64) -> Result<Specs, u64> {
    let got = ffi::strumblay_filter_specs(capacity, rate);
    unless_refused(got.number, bits(got.specs) == [0; 6], got.specs)
}

/// The widths of a resizeable filter.
pub fn plan(initial: u64, max: u64, rate: f64) -> Result<Widths, u64> {
    let got = ffi::strumblay_plan(initial, max, rate);
    unless_refused(got.number, got.widths == Widths::default(), got.widths)
}

/// The bytes of a buffer.
pub fn buffer_len(qbits: u8, rbits: u8) -> Result<u64, u64> {
    value_of(ffi::strumblay_buffer_len(qbits, rbits))
}
