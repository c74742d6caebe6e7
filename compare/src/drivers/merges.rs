//! Merges of equal, wider and narrower fingerprints, with and without duplicates, in one family and
//! now and then of two.

use super::{Effort, reads::some_len};
use crate::call::Call;
use crate::generate::Hashes;
use crate::model::{Filter, Shape};
use crate::seed::Rng;
use crate::sequence::Comparison;

const NAME: &str = "merges";

/// Widths of self and of the other filter.
const PAIRS: [((u8, u8), (u8, u8)); 14] = [
    ((6, 8), (6, 8)),
    ((6, 8), (7, 7)),
    ((7, 7), (6, 8)),
    ((6, 1), (6, 1)),
    ((6, 58), (9, 55)),
    ((8, 3), (8, 3)),
    ((9, 8), (9, 8)),
    ((9, 8), (10, 7)),
    ((6, 8), (6, 9)),
    ((6, 8), (7, 8)),
    ((7, 2), (6, 58)),
    ((9, 8), (6, 20)),
    ((8, 3), (9, 8)),
    ((7, 8), (6, 8)),
];

/// Merges seeded filters of every pair of widths.
pub fn drive(effort: Effort) {
    let mut rng = Rng::new(effort.seed, NAME);
    let mut comparison = Comparison::new(NAME);
    for (mine, theirs) in PAIRS {
        let mine = Shape { qbits: mine.0, rbits: mine.1 };
        let theirs = Shape { qbits: theirs.0, rbits: theirs.1 };
        for _ in 0..(250_000 * effort.times) >> mine.qbits.max(theirs.qbits) {
            pair(&mut comparison, &mut rng, mine, theirs);
        }
    }
    comparison.finish("");
}

fn pair(comparison: &mut Comparison, rng: &mut Rng, mine: Shape, theirs: Shape) {
    let hashes = Hashes::spread(rng, mine);
    let max_qbits = some_max_qbits(rng, mine);
    let len = some_len(rng, mine);
    let start = hashes.holding(rng, max_qbits, len);
    let calls: Vec<Call> = (0..1 + rng.below(3))
        .map(|_| Call::Merge { other: other(rng, &hashes, &start, theirs), keep: rng.one_in(2) })
        .collect();
    comparison.run(&start, &calls);
}

/// None, or anything number 4 lets pass, small enough to hold in memory.
fn some_max_qbits(rng: &mut Rng, shape: Shape) -> u8 {
    let largest = (shape.width() - 1).min(shape.qbits + 3);
    match rng.below(3) {
        0 => 0,
        _ => shape.qbits + rng.below(u64::from(largest - shape.qbits) + 1) as u8,
    }
}

/// The same family, or now and then one that differs in a bit.
pub fn some_family(rng: &mut Rng, family: u64) -> u64 {
    if rng.one_in(8) { family ^ 1 << rng.below(64) } else { family }
}

/// The other filter: by the same spread, partly out of what self holds, and small ones often, so
/// that refusals stand beside results.
fn other(rng: &mut Rng, hashes: &Hashes, start: &Filter, shape: Shape) -> Filter {
    let len = match rng.below(3) {
        0 => some_len(rng, shape),
        1 => rng.below(6),
        _ => rng.below(shape.slots() / 3),
    };
    let mut other = hashes.at(shape).holding(rng, 0, len).of_family(some_family(rng, start.family));
    for place in 0..other.held.len() {
        if !start.held.is_empty() && rng.one_in(3) {
            let high = rng.next() & !(u64::MAX >> (64 - start.shape.width()));
            other.held[place] = shape.fingerprint(rng.pick(&start.held) | high);
        }
    }
    other.held.sort_unstable();
    other
}
