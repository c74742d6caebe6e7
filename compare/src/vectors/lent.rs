//! A buffer with its record, as `crates/vectors` lends it.

use crate::model::{self, Filter, Numbers};
use crate::original::numbers_of;

/// The bytes of each buffer.
const ROOM: usize = 4096;

/// A record, and how much of its buffer is lent.
pub struct Lent {
    /// The record.
    pub numbers: Numbers,
    /// The bytes that are lent.
    pub size: u64,
    /// All bytes.
    pub room: Vec<u8>,
}

impl Lent {
    /// Nothing lent yet.
    pub fn new() -> Lent {
        let numbers = Numbers { len: 0, qbits: 0, rbits: 0, max_qbits: 0, family: 0 };
        Lent { numbers, size: 0, room: vec![0; ROOM] }
    }

    /// The bytes that are lent.
    pub fn bytes(&self) -> &[u8] {
        &self.room[..self.size as usize]
    }

    /// The filter, or the lowest of 1 to 6.
    pub fn check(&self) -> Result<Filter, u64> {
        model::check(self.numbers, self.bytes())
    }

    /// The original's filter of these bytes.
    pub fn original(&self) -> qfilter::Filter {
        let n = self.numbers;
        qfilter::Filter::from_parts(self.bytes(), n.len, n.qbits, n.rbits, n.max_qbits)
    }

    /// Becomes the original's filter, of a family, or gives 12.
    pub fn take(&mut self, filter: &qfilter::Filter, family: u64) -> Result<(), u64> {
        if filter.buffer().len() as u64 != self.size {
            return Err(12);
        }
        self.numbers = Numbers { family, ..numbers_of(filter) };
        self.room[..self.size as usize].copy_from_slice(filter.buffer());
        Ok(())
    }

    /// The bytes as a number in base 257, modulo a prime.
    pub fn sum(&self) -> u64 {
        self.bytes().iter().fold(1, |sum, &byte| (sum * 257 + u64::from(byte)) % 4294967291)
    }
}
