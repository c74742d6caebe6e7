//! Growth, and inserts with a spare, which the original does inside its own insert.

use super::{Effort, reads::some_len};
use crate::call::{Call, ask_model};
use crate::generate::Hashes;
use crate::model::{Filter, Shape};
use crate::seed::Rng;
use crate::sequence::Comparison;

const NAME: &str = "growth";

/// Starts with room to grow: qbits, rbits, max_qbits.
const STARTS: [(u8, u8, u8); 9] = [
    (6, 2, 7),
    (6, 8, 8),
    (6, 58, 9),
    (7, 3, 9),
    (8, 3, 10),
    (8, 56, 59),
    (9, 2, 10),
    (9, 8, 9),
    (6, 8, 0),
];

/// Grows seeded filters, and inserts with a spare from empty on.
pub fn drive(effort: Effort) {
    let mut rng = Rng::new(effort.seed, NAME);
    let mut comparison = Comparison::new(NAME);
    for (qbits, rbits, max_qbits) in STARTS {
        let shape = Shape { qbits, rbits };
        for _ in 0..((12_000 * effort.times) >> qbits).max(4) {
            let hashes = Hashes::spread(&mut rng, shape);
            let len = some_len(&mut rng, shape);
            let start = hashes.holding(&mut rng, max_qbits, len);
            comparison.run(&start, &grows(&start));
        }
        for _ in 0..((1200 * effort.times) >> qbits).max(2) {
            let hashes = Hashes::spread(&mut rng, shape);
            let start = Filter::new(shape, max_qbits, Vec::new()).of_family(rng.next());
            let calls = inserts(&mut rng, &hashes, &start);
            comparison.run(&start, &calls);
        }
    }
    comparison.finish("");
}

/// Grown until 7, twice at most beyond qbits 10, and listed each time.
fn grows(start: &Filter) -> Vec<Call> {
    let steps = start.max_qbits.clamp(start.shape.qbits, 11) - start.shape.qbits + 1;
    (0..steps).flat_map(|_| [Call::Grow, Call::List]).collect()
}

/// Inserts with a spare until the largest size refuses, or 1500 calls.
fn inserts(rng: &mut Rng, hashes: &Hashes, start: &Filter) -> Vec<Call> {
    let mut filter = start.clone();
    let mut calls = Vec::new();
    let mut refused = 0;
    while refused < 3 && calls.len() < 1500 {
        let Call::Insert { hash, max_count } = hashes.insert(rng) else { unreachable!() };
        let call = Call::InsertSpare { hash, max_count };
        ask_model(&mut filter, &call);
        refused += u64::from(
            filter.len() >= filter.shape.capacity() && filter.max_qbits <= filter.shape.qbits,
        );
        calls.push(call);
    }
    calls
}
