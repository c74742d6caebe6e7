//! Inserts and removes with lookups and counts between, from empty to capacity and back.

use super::{Effort, shapes};
use crate::generate::{Hashes, SPREADS};
use crate::model::Shape;
use crate::seed::Rng;
use crate::sequence::Comparison;

const NAME: &str = "writes";

/// How many walks for a spread, so that each shape takes about the same time.
fn walks(shape: Shape) -> u64 {
    match shape.qbits {
        6 => 16,
        7 | 8 => 6,
        _ => 1,
    }
}

/// Walks up and down in every shape and spread.
pub fn drive(effort: Effort) {
    let mut rng = Rng::new(effort.seed, NAME);
    let mut comparison = Comparison::new(NAME);
    for shape in shapes() {
        for spread in SPREADS {
            for round in 0..walks(shape) * effort.times {
                let hashes = Hashes::new(&mut rng, shape, spread);
                // In large shapes the whole way up and down is long mode's.
                let whole = shape.qbits < 10 || round == 1;
                walk(&mut comparison, &mut rng, &hashes, shape, whole);
            }
        }
    }
    comparison.finish("");
}

/// From empty to capacity and back, or a part of it near capacity, where the clusters are long.
fn walk(comparison: &mut Comparison, rng: &mut Rng, hashes: &Hashes, shape: Shape, whole: bool) {
    let (len, limit) = if whole { (0, 40_000) } else { (shape.capacity() - 60, 400) };
    let start = hashes.holding(rng, 0, len);
    let calls = hashes.up_and_down(rng, &start, limit);
    comparison.run(&start, &calls);
}
