//! What goes to the library and comes back from it by value, laid out for C but for `Fresh`.

/// The record beside a buffer; saved together with it. A list that was saved before there was a
/// family is given one here.
#[repr(C)]
#[derive(Clone, Copy, PartialEq, Eq, Hash, Debug)]
pub struct Numbers {
    /// How many fingerprints are held, each as often as it is.
    pub len: u64,
    /// Bits of the quotient; the filter has 2^qbits slots.
    pub qbits: u8,
    /// Bits of the remainder.
    pub rbits: u8,
    /// The largest qbits that it may grow to, or 0 for none.
    pub max_qbits: u8,
    /// Says which hash made the fingerprints: filters of two families are never merged.
    pub family: u64,
}

/// The widths of a filter: how many bits of a fingerprint choose its place, how many are stored
/// there, and how far it may grow.
///
/// ```
/// use strumblay::{Error, Widths};
///
/// // For ten fingerprints now and a thousand in the end.
/// let widths = Widths::planned(10, 1000, 0.01)?;
/// assert_eq!(widths, Widths { qbits: 6, rbits: 12, max_qbits: 11 });
/// assert_eq!(widths.buffer_len()?, 121);
/// assert_eq!(Widths::planned(1000, 10, 0.01), Err(Error::MAXIMUM_BELOW_INITIAL));
/// # Ok::<(), Error>(())
/// ```
#[repr(C)]
#[derive(Clone, Copy, PartialEq, Eq, Hash, Debug, Default)]
pub struct Widths {
    /// Bits of the quotient; the filter has 2^qbits slots.
    pub qbits: u8,
    /// Bits of the remainder.
    pub rbits: u8,
    /// The largest qbits that it may grow to, or 0 for none.
    pub max_qbits: u8,
}

/// What a fresh filter is made of: its widths, and the family of its fingerprints. Give each hash
/// that you use a number of your own, the same wherever lists may meet, and never the same to two.
///
/// ```
/// use strumblay::{Error, Filter, Widths};
///
/// let filter = Filter::new(Widths::new(6, 8).family(2026))?;
/// assert_eq!(filter.family(), 2026);
/// # Ok::<(), Error>(())
/// ```
#[derive(Clone, Copy, PartialEq, Eq, Hash, Debug)]
#[must_use]
pub struct Fresh {
    /// The widths.
    pub widths: Widths,
    /// The family.
    pub family: u64,
}

impl Widths {
    /// What a fresh filter of these widths is made of, for the fingerprints of this family.
    pub const fn family(self, family: u64) -> Fresh {
        Fresh { widths: self, family }
    }
}

/// What a filter for a capacity and a rate takes, and what it gives.
#[repr(C)]
#[derive(Clone, Copy, PartialEq, Debug, Default)]
pub struct Specs {
    /// So many fingerprints fit.
    pub max_capacity: u64,
    /// A lookup of what isn't held says yes this often at the most.
    pub max_error_ratio: f64,
    /// Bits for each slot.
    pub bits_per_item: f64,
    /// Bytes of the smallest filter with fingerprints of this width.
    pub memory_bytes_min: u64,
    /// Bytes of the filter at its full size.
    pub memory_bytes_max: u64,
    /// Bits of a fingerprint.
    pub fingerprint_bits: u64,
}

/// How far a listing is: quotient and slot of the fingerprint to come, and how many are to come; all 0
/// at the end.
#[repr(C)]
#[derive(Clone, Copy, PartialEq, Eq, Hash, Debug, Default)]
pub struct Place {
    /// The quotient of the next fingerprint.
    pub quotient: u64,
    /// The slot where its remainder lies.
    pub slot: u64,
    /// How many fingerprints remain, it included.
    pub remaining: u64,
}
