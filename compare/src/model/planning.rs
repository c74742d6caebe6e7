//! docs/RULES.md, "Planning".

use super::{Shape, Specs, Widths};

/// The capacity of 2^59 slots; above it number 10 is given.
pub const MAX_CAPACITY: u64 = 547637714688252314;

/// Every field as it stands in memory, so that floats are compared bit for bit.
pub fn bits(specs: Specs) -> [u64; 6] {
    let floats = [specs.max_error_ratio, specs.bits_per_item].map(f64::to_bits);
    let bytes = [specs.memory_bytes_min, specs.memory_bytes_max];
    [specs.max_capacity, floats[0], floats[1], bytes[0], bytes[1], specs.fingerprint_bits]
}

/// The slots for a capacity, a power of two from 64 on; or 10.
pub fn slots_for(capacity: u64) -> Result<u64, u64> {
    if capacity > MAX_CAPACITY {
        return Err(10);
    }
    let mut slots: u64 = 64;
    while (19 * slots).div_ceil(20) < capacity {
        slots *= 2;
    }
    Ok(slots)
}

/// rbits for a rate that is clamped first, by exact halving; 1 if it is no number.
pub fn rbits_for(rate: f64) -> u8 {
    if rate.is_nan() {
        return 1;
    }
    let least = 0.5f64.powi(64);
    let rate = if rate < least { least } else { rate.min(0.5) };
    let mut k = 1;
    let mut power = 0.5;
    while power > rate {
        k += 1;
        power /= 2.0;
    }
    k
}

/// Specs for a capacity and a rate: 10, 9.
pub fn filter_specs(capacity: u64, rate: f64) -> Result<Specs, u64> {
    specs_with(capacity, rbits_for(rate))
}

/// Specs for a capacity and the rbits that a rate was found to need: 10, 9.
pub fn specs_with(capacity: u64, rbits: u8) -> Result<Specs, u64> {
    let slots = slots_for(capacity)?;
    let shape = within_64(slots.ilog2() as u8, rbits)?;
    let smallest = Shape { qbits: 6, rbits: shape.width() - 6 };
    Ok(Specs {
        max_capacity: shape.capacity(),
        max_error_ratio: (0..rbits).fold(1.0, |ratio, _| ratio / 2.0),
        bits_per_item: f64::from(rbits) + 2.125,
        memory_bytes_min: smallest.buffer_len(),
        memory_bytes_max: shape.buffer_len(),
        fingerprint_bits: u64::from(shape.width()),
    })
}

/// The widths of a resizeable filter: 11, 10, 9.
pub fn plan(initial: u64, max: u64, rate: f64) -> Result<Widths, u64> {
    plan_with(initial, max, rbits_for(rate))
}

/// The widths for the rbits that a rate was found to need: 11, 10, 9.
pub fn plan_with(initial: u64, max: u64, rbits: u8) -> Result<Widths, u64> {
    if max < initial {
        return Err(11);
    }
    let qbits = slots_for(initial)?.ilog2() as u8;
    let max_qbits = slots_for(max)?.ilog2() as u8;
    let shape = within_64(qbits, rbits + (max_qbits - qbits))?;
    let max_qbits = if max_qbits == qbits { 0 } else { max_qbits };
    Ok(Widths { qbits, rbits: shape.rbits, max_qbits })
}

/// Number 9.
fn within_64(qbits: u8, rbits: u8) -> Result<Shape, u64> {
    Shape::new(qbits, rbits).map_err(|_| 9)
}
