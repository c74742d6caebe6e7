//! docs/RULES.md, "The image of a holding" and "The bytes of a block".

use super::Shape;

/// carry(q) of every quotient, for fewer than slots ascending fingerprints.
pub fn carries(shape: Shape, held: &[u64]) -> Vec<u64> {
    let mut n = vec![0u64; shape.slots() as usize];
    for &fingerprint in held {
        n[shape.quotient(fingerprint) as usize] += 1;
    }
    let next = |carry: u64, n: u64| (carry + n).saturating_sub(1);
    // Once round from 0 gives carry(0); a second round gives the rest.
    let mut carry = n.iter().fold(0, |carry, &n| next(carry, n));
    let mut all = Vec::with_capacity(n.len());
    for &n in &n {
        all.push(carry);
        carry = next(carry, n);
    }
    all
}

/// The bytes of a holding: fewer than slots ascending fingerprints.
pub fn image(shape: Shape, held: &[u64]) -> Vec<u8> {
    assert!((held.len() as u64) < shape.slots());
    let carry = carries(shape, held);
    let mut buffer = Buffer::zero(shape);
    for run in held.chunk_by(|&a, &b| shape.quotient(a) == shape.quotient(b)) {
        let q = shape.quotient(run[0]);
        let first = q + carry[q as usize];
        buffer.set_occupied(q);
        for (slot, &fingerprint) in (first..).zip(run) {
            buffer.set_remainder(slot % shape.slots(), shape.remainder(fingerprint));
        }
        let last = first + run.len() as u64 - 1;
        buffer.set_runend(last % shape.slots());
    }
    for block in 0..shape.blocks() {
        buffer.set_offset(block, carry[64 * block as usize].min(255) as u8);
    }
    buffer.bytes
}

/// Where bits lie: bit i of a little-endian word is bit i of its bytes, least bit first.
struct Buffer {
    shape: Shape,
    bytes: Vec<u8>,
}

impl Buffer {
    fn zero(shape: Shape) -> Buffer {
        let bytes = vec![0; shape.buffer_len() as usize];
        Buffer { shape, bytes }
    }

    fn set_offset(&mut self, block: u64, offset: u8) {
        self.bytes[(block * self.shape.block_len()) as usize] = offset;
    }

    fn set_occupied(&mut self, slot: u64) {
        self.set_bit(slot, 1, slot % 64);
    }

    fn set_runend(&mut self, slot: u64) {
        self.set_bit(slot, 9, slot % 64);
    }

    fn set_remainder(&mut self, slot: u64, remainder: u64) {
        let rbits = u64::from(self.shape.rbits);
        let first = slot % 64 * rbits;
        for bit in (0..rbits).filter(|bit| remainder >> bit & 1 == 1) {
            self.set_bit(slot, 17, first + bit);
        }
    }

    /// Sets a bit of the slot's block, counted from byte `from` of the block.
    fn set_bit(&mut self, slot: u64, from: u64, bit: u64) {
        let start = slot / 64 * self.shape.block_len() + from;
        self.bytes[(start + bit / 8) as usize] |= 1 << (bit % 8);
    }
}
