//! docs/RULES.md, "A filter and its record": widths, and the lengths that follow from them.

/// The widths of a filter, known to pass number 1.
#[derive(Clone, Copy, PartialEq, Eq, Debug)]
pub struct Shape {
    pub qbits: u8,
    pub rbits: u8,
}

impl Shape {
    /// The smallest qbits.
    pub const MIN_QBITS: u8 = 6;
    /// The largest qbits.
    pub const MAX_QBITS: u8 = 59;

    /// The shape of these widths, or number 1.
    pub fn new(qbits: u8, rbits: u8) -> Result<Shape, u64> {
        let inside = (Self::MIN_QBITS..=Self::MAX_QBITS).contains(&qbits);
        if !inside || rbits == 0 || u32::from(qbits) + u32::from(rbits) > 64 {
            return Err(1);
        }
        Ok(Shape { qbits, rbits })
    }

    /// 2^qbits.
    pub fn slots(self) -> u64 {
        1 << self.qbits
    }

    /// 19·slots/20, rounded up.
    pub fn capacity(self) -> u64 {
        (19 * self.slots()).div_ceil(20)
    }

    /// A block has 64 slots.
    pub fn blocks(self) -> u64 {
        self.slots() / 64
    }

    /// One offset byte, two words, and 64 remainders without gaps.
    pub fn block_len(self) -> u64 {
        17 + 8 * u64::from(self.rbits)
    }

    /// All blocks, and eight bytes behind them.
    pub fn buffer_len(self) -> u64 {
        self.blocks() * self.block_len() + 8
    }

    /// qbits + rbits.
    pub fn width(self) -> u8 {
        self.qbits + self.rbits
    }

    /// The low bits of the hash; higher ones are ignored.
    pub fn fingerprint(self, hash: u64) -> u64 {
        hash & (u64::MAX >> (64 - self.width()))
    }

    /// The high bits of a fingerprint.
    pub fn quotient(self, fingerprint: u64) -> u64 {
        fingerprint >> self.rbits
    }

    /// The low bits of a fingerprint.
    pub fn remainder(self, fingerprint: u64) -> u64 {
        fingerprint & ((1 << self.rbits) - 1)
    }

    /// The fingerprint of a quotient and a remainder.
    pub fn join(self, quotient: u64, remainder: u64) -> u64 {
        quotient << self.rbits | remainder
    }

    /// Number 4: 0 means none.
    pub fn allows(self, max_qbits: u8) -> bool {
        let largest = Self::MAX_QBITS.min(self.width() - 1);
        max_qbits == 0 || (self.qbits..=largest).contains(&max_qbits)
    }
}
