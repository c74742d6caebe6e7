//! Random holdings: up to capacity, read back from their image, listed place by place, and looked
//! up all around what they hold; above capacity, where 5 is due, listed by the original.

use super::{Effort, shapes};
use crate::call::Call;
use crate::generate::Hashes;
use crate::model::{Filter, Shape, check};
use crate::original::{from_model, listed};
use crate::seed::Rng;
use crate::sequence::Comparison;
use crate::smallest::describe;

const NAME: &str = "reads";

/// Reads seeded holdings of every shape.
pub fn drive(effort: Effort) {
    let mut rng = Rng::new(effort.seed, NAME);
    let mut comparison = Comparison::new(NAME);
    let mut holdings = 0;
    for shape in shapes() {
        for _ in 0..((20_000 * effort.times) >> shape.qbits).max(6) {
            let hashes = Hashes::spread(&mut rng, shape);
            let len = some_len(&mut rng, shape);
            let filter = hashes.holding(&mut rng, 0, len);
            reads_back(&filter);
            comparison.run(&filter, &reads(&mut rng, &hashes, &filter));
            lists_back(&above_capacity(&mut rng, shape, &hashes));
            holdings += 1;
        }
    }
    comparison.finish(&format!(
        ", {holdings} holdings read back from their image, and as many above capacity listed"
    ));
}

/// Any len that may be sound, with the edges often.
pub fn some_len(rng: &mut Rng, shape: Shape) -> u64 {
    let capacity = shape.capacity();
    match rng.below(8) {
        0 => 0,
        1 => 1 + rng.below(3),
        2 => capacity,
        3 => capacity - 1 - rng.below(2),
        _ => rng.below(capacity + 1),
    }
}

/// The model's own check must find the holding that an image was made of.
fn reads_back(filter: &Filter) {
    if check(filter.numbers(), &filter.image()).as_ref() != Ok(filter) {
        println!("{NAME}: the model DISAGREES with itself\n  on {}", describe(filter));
        std::process::exit(1);
    }
}

/// A holding above capacity that leaves a slot empty.
pub fn above_capacity(rng: &mut Rng, shape: Shape, hashes: &Hashes) -> Filter {
    let mut filter = hashes.holding(rng, 0, shape.capacity());
    for _ in 0..=rng.below(shape.slots() - 1 - shape.capacity()) {
        filter.add(hashes.hash(rng));
    }
    filter
}

/// Of such a holding the model gives 5, and the original lists its image.
fn lists_back(filter: &Filter) {
    let image = filter.image();
    let (number, held) = (check(filter.numbers(), &image), listed(&from_model(filter, &image)).0);
    if number != Err(5) || held != filter.held {
        println!("{NAME}: above capacity DISAGREES\n  on {}\n  {number:?}", describe(filter));
        std::process::exit(1);
    }
}

fn reads(rng: &mut Rng, hashes: &Hashes, filter: &Filter) -> Vec<Call> {
    let mut calls = vec![Call::List];
    for _ in 0..60 {
        let hash = match rng.below(3) {
            0 if !filter.held.is_empty() => rng.pick(&filter.held),
            1 if !filter.held.is_empty() => {
                rng.pick(&filter.held) ^ 1 << rng.below(filter.shape.rbits.into())
            }
            _ => hashes.hash(rng),
        };
        calls.extend([Call::Contains { hash }, Call::Count { hash }]);
    }
    calls
}
