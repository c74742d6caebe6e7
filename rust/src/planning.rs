//! Planning: which widths, and what they take.

use crate::{Error, Result, Specs, Widths, ffi};

impl Widths {
    /// Widths that don't grow.
    pub const fn new(qbits: u8, rbits: u8) -> Widths {
        Widths { qbits, rbits, max_qbits: 0 }
    }

    /// Widths for a first capacity, a last one, and a rate of false answers between 0 and 1.
    /// With equal capacities the filter doesn't grow. Refuses 11, 10, 9.
    pub fn planned(initial: u64, max: u64, rate: f64) -> Result<Widths> {
        let got = ffi::strumblay_plan(initial, max, rate);
        Error::unless(got.number, got.widths)
    }

    /// The bytes of a buffer. Refuses 1.
    pub fn buffer_len(self) -> Result<usize> {
        let got = ffi::strumblay_buffer_len(self.qbits, self.rbits);
        Error::unless(got.number, got.value as usize)
    }
}

/// What a filter for a capacity and a rate of false answers takes. Refuses 10, 9.
///
/// ```
/// let specs = strumblay::filter_specs(1000, 0.01)?;
/// assert_eq!((specs.max_capacity, specs.fingerprint_bits), (1946, 18));
/// assert_eq!((specs.memory_bytes_min, specs.memory_bytes_max), (121, 2344));
/// assert_eq!((specs.max_error_ratio, specs.bits_per_item), (0.0078125, 9.125));
/// # Ok::<(), strumblay::Error>(())
/// ```
pub fn filter_specs(capacity: u64, rate: f64) -> Result<Specs> {
    let got = ffi::strumblay_filter_specs(capacity, rate);
    Error::unless(got.number, got.specs)
}

/// The smallest power of two of slots, 64 or more, whose capacity suffices. Refuses 10.
///
/// ```
/// assert_eq!(strumblay::slots_for(61), Ok(64));
/// assert_eq!(strumblay::slots_for(62), Ok(128));
/// ```
pub fn slots_for(capacity: u64) -> Result<u64> {
    let got = ffi::strumblay_slots_for(capacity);
    Error::unless(got.number, got.value)
}

/// The position of the n-th one of `x`, counted from 0.
///
/// ```
/// assert_eq!(strumblay::select(11, 2), Some(3));
/// assert_eq!(strumblay::select(u64::MAX, 64), None);
/// ```
pub fn select(x: u64, n: u64) -> Option<u32> {
    let position = ffi::strumblay_select(x, n) as u32;
    (position < 64).then_some(position)
}
