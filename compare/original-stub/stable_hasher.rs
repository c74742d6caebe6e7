//! Stands in for the original's `stable_hasher`, which no fingerprint-level call reaches.
//! As a child of the crate root it may read private fields, so the accessors live here too.

use crate::{BitExt, Builder, Error, Filter, FingerprintIter};
use std::hash::{BuildHasher, DefaultHasher};

/// The hasher type that the original names; its hashes are never used here.
#[derive(Clone, Copy, Debug, Default)]
pub struct StableBuildHasher;

impl BuildHasher for StableBuildHasher {
    type Hasher = DefaultHasher;

    fn build_hasher(&self) -> DefaultHasher {
        DefaultHasher::new()
    }
}

/// The private fields, taken apart and put together.
impl Filter {
    /// A filter from its parts; 0 for `max_qbits` means none.
    pub fn from_parts(buffer: &[u8], len: u64, qbits: u8, rbits: u8, max_qbits: u8) -> Self {
        Filter {
            buffer: buffer.into(),
            build_hasher: StableBuildHasher,
            len,
            qbits: qbits.try_into().expect("qbits is not 0"),
            rbits: rbits.try_into().expect("rbits is not 0"),
            max_qbits: max_qbits.try_into().ok(),
        }
    }

    /// The raw bytes.
    pub fn buffer(&self) -> &[u8] {
        &self.buffer
    }

    /// The raw bytes, lent to another writer; `len` stays as it was.
    pub fn buffer_mut(&mut self) -> &mut [u8] {
        &mut self.buffer
    }

    /// Becomes `other`, of the same widths, in the same memory.
    pub fn put_back(&mut self, other: &Filter) {
        self.buffer.copy_from_slice(&other.buffer);
        self.len = other.len;
    }

    /// len, qbits, rbits, max_qbits, the last one 0 for none.
    pub fn parts(&self) -> (u64, u8, u8, u8) {
        let max_qbits = self.max_qbits.map_or(0, |m| m.get());
        (self.len, self.qbits.get(), self.rbits.get(), max_qbits)
    }

    /// `insert_impl`, the insert that does not grow.
    pub fn insert_without_growth(&mut self, max_count: u64, hash: u64) -> Result<u64, Error> {
        self.insert_impl(max_count, hash)
    }

    /// `rebuild_grown`, as a filter.
    pub fn grown(&self) -> Result<Self, Error> {
        self.rebuild_grown().map(Builder::into_filter)
    }
}

/// The private functions that are compared on their own.
impl Filter {
    /// `BitExt::select`, by assembly where the build has it.
    pub fn word_select(x: u64, n: u64) -> Option<u64> {
        x.select(0.., n)
    }

    /// The body that has no assembly.
    pub fn portable_select(x: u64, n: u64) -> Option<u64> {
        crate::portable_select::select(x, n)
    }

    /// `calculate_needed_slots`.
    pub fn needed_slots(capacity: u64) -> Result<u64, Error> {
        crate::calculate_needed_slots(capacity)
    }
}

impl FingerprintIter<'_> {
    /// Quotient, slot and how many remain, as far as the iterator keeps them.
    pub fn place(&self) -> (u64, u64, u64) {
        let slot = self.r_bucket_idx % self.filter.total_buckets();
        (self.q_bucket_idx, slot, self.remaining)
    }
}
