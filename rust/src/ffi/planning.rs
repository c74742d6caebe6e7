//! Calls on numbers alone.

use super::{Outcome, Planned, Specified};

unsafe extern "C" {
    /// The position of the n-th one of x, counted from 0, or 64.
    pub safe fn strumblay_select(x: u64, n: u64) -> u64;
    /// The slots for a capacity.
    pub safe fn strumblay_slots_for(capacity: u64) -> Outcome;
    /// What a filter for a capacity and a rate takes and gives.
    pub safe fn strumblay_filter_specs(capacity: u64, rate: f64) -> Specified;
    /// The widths for a first capacity, a last one, and a rate.
    pub safe fn strumblay_plan(initial: u64, max: u64, rate: f64) -> Planned;
    /// The bytes of a buffer.
    pub safe fn strumblay_buffer_len(qbits: u8, rbits: u8) -> Outcome;
}
