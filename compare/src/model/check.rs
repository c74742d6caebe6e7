//! docs/RULES.md, "Refusals" and "Sound": numbers 1 to 6, the sixth by finding the holding.

use super::{Filter, Numbers, Shape};

/// The lowest of 1 to 5 that is due, or the shape.
pub fn due_before_image(numbers: Numbers, buffer_len: u64) -> Result<Shape, u64> {
    let shape = Shape::new(numbers.qbits, numbers.rbits)?;
    if buffer_len != shape.buffer_len() {
        return Err(2);
    }
    if numbers.len > shape.slots() {
        return Err(3);
    }
    if !shape.allows(numbers.max_qbits) {
        return Err(4);
    }
    if numbers.len > shape.capacity() {
        return Err(5);
    }
    Ok(shape)
}

/// The filter that these numbers and bytes are, or the lowest of 1 to 6.
pub fn check(numbers: Numbers, bytes: &[u8]) -> Result<Filter, u64> {
    let shape = due_before_image(numbers, bytes.len() as u64)?;
    // If there is a holding, reading finds it; whether there is one, its image tells.
    let held = Buffer { shape, bytes }.read(numbers.len).ok_or(6u64)?;
    let filter = Filter::new(shape, numbers.max_qbits, held).of_family(numbers.family);
    if filter.image() == bytes { Ok(filter) } else { Err(6) }
}

/// Bytes of the right length, not known to be an image.
struct Buffer<'a> {
    shape: Shape,
    bytes: &'a [u8],
}

impl Buffer<'_> {
    /// carry(0): the slots up to the last end of a run that came round. Such runs end first, and
    /// at a slot that is free runends have come to stand ahead of occupieds by their number.
    fn first_carry(&self) -> u64 {
        let slots = 0..self.shape.slots();
        let mut ahead = 0i64;
        let mut came_round = 0;
        for slot in slots.clone() {
            ahead += i64::from(self.is_runend(slot)) - i64::from(self.is_occupied(slot));
            came_round = came_round.max(ahead);
        }
        let runends = slots.filter(|&slot| self.is_runend(slot));
        runends.take(came_round as usize).last().map_or(0, |slot| slot + 1)
    }

    /// The fingerprints that stand there; none if there aren't `len`.
    fn read(&self, len: u64) -> Option<Vec<u64>> {
        let mut held = Vec::new();
        let mut free = self.first_carry();
        for q in (0..self.shape.slots()).filter(|&q| self.is_occupied(q)) {
            free = free.max(q);
            loop {
                if held.len() as u64 == len {
                    return None;
                }
                held.push(self.shape.join(q, self.remainder(free)));
                free += 1;
                if self.is_runend(free - 1) {
                    break;
                }
            }
        }
        (held.len() as u64 == len).then_some(held)
    }

    fn is_occupied(&self, slot: u64) -> bool {
        self.bit(slot, 1, slot % 64)
    }

    fn is_runend(&self, slot: u64) -> bool {
        self.bit(slot, 9, slot % 64)
    }

    fn remainder(&self, slot: u64) -> u64 {
        let rbits = u64::from(self.shape.rbits);
        let bit = |i: u64| u64::from(self.bit(slot, 17, slot % 64 * rbits + i));
        (0..rbits).fold(0, |remainder, i| remainder | bit(i) << i)
    }

    /// A bit of the slot's block, counted from byte `from` of the block; slots go round.
    fn bit(&self, slot: u64, from: u64, bit: u64) -> bool {
        let start = slot % self.shape.slots() / 64 * self.shape.block_len() + from;
        self.bytes[(start + bit / 8) as usize] >> (bit % 8) & 1 == 1
    }
}
