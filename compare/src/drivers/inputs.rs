//! Capacities and rates for planning: every edge, and random ones.

use crate::model::planning::MAX_CAPACITY;
use crate::seed::Rng;

/// Powers of two and full capacities, one off either way, and the largest.
pub fn capacities(rng: &mut Rng, random: u64) -> Vec<u64> {
    let mut all: Vec<u64> = (0..70).collect();
    for k in 6..64 {
        let full = (19u128 << k).div_ceil(20) as u64;
        all.extend([-1, 0, 1].map(|off| (1u64 << k).wrapping_add_signed(off)));
        all.extend([-1, 0, 1].map(|off| full.wrapping_add_signed(off)));
    }
    all.extend((MAX_CAPACITY - 3)..=(MAX_CAPACITY + 3));
    all.extend([u64::MAX - 1, u64::MAX]);
    all.extend((0..random).map(|_| rng.next() >> rng.below(64)));
    all
}

/// Floats around every power of two, what isn't a proper rate, and random ones.
pub fn rates(rng: &mut Rng, random: u64) -> Vec<f64> {
    let mut all = vec![0.0, -0.0, 0.01, 0.3, 0.5, 0.7, 1.0, 2.0, -0.25, -1.0];
    all.extend([f64::INFINITY, f64::NEG_INFINITY, f64::MAX, f64::MIN, f64::MIN_POSITIVE]);
    all.extend([0x7ff8 << 48, 0xfff8 << 48, (0x7ff0 << 48) + 1, u64::MAX].map(f64::from_bits));
    all.extend([1, 2, (1 << 52) - 1, 1 << 51, (1 << 63) + 1].map(f64::from_bits));
    for k in 1..=70 {
        let power = 0.5f64.powi(k).to_bits();
        all.extend(((power - 64)..=(power + 4)).map(f64::from_bits));
    }
    for _ in 0..random {
        let unit = (rng.next() >> 11) as f64 / (1u64 << 53) as f64;
        all.push(unit);
        all.push(unit * 0.5f64.powi(rng.below(70) as i32));
        all.push(f64::from_bits(rng.next()));
    }
    all
}
