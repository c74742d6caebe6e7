//! Every max_count against every small multiplicity, below capacity and at it, by an insert and by
//! one with a spare.

use super::{Effort, shapes};
use crate::call::Call;
use crate::generate::Hashes;
use crate::model::{Filter, Shape};
use crate::seed::Rng;
use crate::sequence::Comparison;

const NAME: &str = "counts";

const MAX_COUNTS: [u64; 5] = [0, 1, 2, 3, u64::MAX];

/// Multiplicities up to one more than the largest small max_count.
const COPIES: std::ops::Range<u64> = 0..5;

/// The comparison, and how many calls were made below capacity and at it.
struct Asked {
    comparison: Comparison,
    below: u64,
    at: u64,
}

/// Every shape, in filters that may not grow and, where there is a bit left, in ones that may.
pub fn drive(effort: Effort) {
    let mut rng = Rng::new(effort.seed, NAME);
    let mut asked = Asked { comparison: Comparison::new(NAME), below: 0, at: 0 };
    for shape in shapes() {
        for round in 0..2 * effort.times {
            let may_grow = shape.rbits > 1 && round % 2 == 1;
            asked.all(&mut rng, shape, if may_grow { shape.qbits + 1 } else { 0 });
        }
    }
    let Asked { comparison, below, at } = asked;
    comparison.finish(&format!("; asked {below} times below capacity, {at} times at it"));
}

impl Asked {
    /// Every multiplicity, somewhere below capacity, one below it and at it.
    fn all(&mut self, rng: &mut Rng, shape: Shape, max_qbits: u8) {
        for copies in COPIES {
            let room = shape.capacity() - copies;
            for others in [rng.below(room), room - 1, room] {
                let (start, hash) = holding(rng, shape, max_qbits, copies, others);
                let calls = both(&mut self.comparison, &start, hash);
                *(if others < room { &mut self.below } else { &mut self.at }) += calls;
            }
        }
    }
}

/// A hash held so often, among so many others.
fn holding(rng: &mut Rng, shape: Shape, max_qbits: u8, copies: u64, others: u64) -> (Filter, u64) {
    let hashes = Hashes::spread(rng, shape);
    let hash = hashes.hash(rng);
    let mut held = vec![shape.fingerprint(hash); copies as usize];
    while (held.len() as u64) < copies + others {
        let other = shape.fingerprint(hashes.hash(rng));
        if other != shape.fingerprint(hash) {
            held.push(other);
        }
    }
    (Filter::new(shape, max_qbits, held).of_family(rng.next()), hash)
}

/// Both inserts with every max_count, each on the same start; how many calls that is.
fn both(comparison: &mut Comparison, start: &Filter, hash: u64) -> u64 {
    for max_count in MAX_COUNTS {
        comparison.run(start, &[Call::Insert { hash, max_count }]);
        comparison.run(start, &[Call::InsertSpare { hash, max_count }]);
    }
    2 * MAX_COUNTS.len() as u64
}
