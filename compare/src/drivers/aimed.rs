//! Aims at what random sequences miss: a cluster that goes round into its own block and pushes
//! that block's first runs on, while a removal takes a saturated carry from 255 to 254. The true
//! value is then found through the own block's offset, which must have been lowered before.

use super::Effort;
use crate::call::{Call, ask_model};
use crate::model::{Filter, Shape, carries};
use crate::seed::Rng;
use crate::sequence::Comparison;

const NAME: &str = "aimed";

/// Runs calls around rings until the aimed case has been met.
pub fn drive(effort: Effort) {
    let mut rng = Rng::new(effort.seed, NAME);
    let mut comparison = Comparison::new(NAME);
    let mut met = 0;
    for (qbits, rbits, rounds) in [(9, 8, 200), (9, 1, 60), (9, 55, 60), (10, 5, 40)] {
        let shape = Shape { qbits, rbits };
        for _ in 0..rounds * effort.times {
            let (start, block) = ring(&mut rng, shape);
            let calls = around(&mut rng, &start, block);
            met += count_met(&start, &calls);
            comparison.run(&start, &calls);
        }
    }
    assert!(met > 0, "the aim was missed");
    comparison.finish(&format!(", {met} removals in the aimed case"));
}

/// A holding with one cluster that begins inside a block, brings about 255 into the next one,
/// goes all the way round, and ends in the block it began in.
fn ring(rng: &mut Rng, shape: Shape) -> (Filter, u64) {
    let block = rng.below(shape.blocks());
    let counts = counts(rng, shape);
    let mut held = Vec::new();
    for (place, &n) in counts.iter().enumerate() {
        let quotient = (64 * block + place as u64) % shape.slots();
        let remainder = |rng: &mut Rng| rng.next() & ((1 << shape.rbits) - 1);
        held.extend((0..n).map(|_| shape.join(quotient, remainder(rng))));
    }
    (Filter::new(shape, 0, held), block)
}

/// n(q) from the block's first quotient on.
fn counts(rng: &mut Rng, shape: Shape) -> Vec<u64> {
    // The gap between the cluster's end and its beginning keeps it within capacity.
    let gap = shape.slots() - shape.capacity();
    let end = 1 + rng.below(63 - gap);
    let begin = end + gap + rng.below(64 - end - gap);
    let back = 1 + rng.below(end);
    let into_next = 252 + rng.below(8);
    let mut counts = falling(rng, end, back);
    counts.resize(begin as usize, 0);
    counts.resize(64, 1);
    for _ in 0..into_next {
        counts[(begin + rng.below(64 - begin)) as usize] += 1;
    }
    let mut rest = falling(rng, shape.slots() - 64, into_next - back);
    // Taking some earlier makes runs of two and more, and leaves both ends as they are.
    for _ in 0..shape.slots() / 8 {
        let late = rng.below(rest.len() as u64);
        let early = rng.below(late + 1);
        if rest[late as usize] > 0 {
            rest[late as usize] -= 1;
            rest[early as usize] += 1;
        }
    }
    counts.extend(rest);
    counts
}

/// Counts over so many quotients through which the carry falls by `fall`, at the very last too.
fn falling(rng: &mut Rng, quotients: u64, fall: u64) -> Vec<u64> {
    let mut counts: Vec<u64> = (1..quotients).map(|place| u64::from(place >= fall)).collect();
    rng.shuffle(&mut counts);
    counts.push(0);
    counts
}

/// Removes and inserts in the block, so that the carry into the next one goes down and up.
fn around(rng: &mut Rng, start: &Filter, block: u64) -> Vec<Call> {
    let mut filter = start.clone();
    let mut calls = Vec::new();
    for step in 0..24 {
        let inside: Vec<u64> = filter
            .held
            .iter()
            .copied()
            .filter(|&f| filter.shape.quotient(f) / 64 == block)
            .collect();
        let hash = rng.pick(&inside);
        let call = match step / 6 % 2 {
            0 => Call::Remove { hash },
            _ => Call::Insert { hash, max_count: u64::MAX },
        };
        ask_model(&mut filter, &call);
        calls.extend([call, Call::Contains { hash }]);
    }
    calls.push(Call::List);
    calls
}

/// How many removals meet the case.
fn count_met(start: &Filter, calls: &[Call]) -> u64 {
    let mut filter = start.clone();
    let mut met = 0;
    for call in calls {
        let before = filter.clone();
        ask_model(&mut filter, call);
        if let Call::Remove { hash } = *call {
            met += u64::from(meets(&before, &filter, hash));
        }
    }
    met
}

/// Beyond the own block, through saturated blocks only, a carry goes from 255 to 254; the own
/// block's falls too; and a run's end now stands where its old offset would pass it over.
fn meets(before: &Filter, after: &Filter, hash: u64) -> bool {
    let shape = after.shape;
    let own = shape.quotient(shape.fingerprint(hash)) / 64;
    let (was, is) = (carries(shape, &before.held), carries(shape, &after.held));
    let carried = |block: u64| {
        let first = (block % shape.blocks() * 64) as usize;
        (was[first], is[first])
    };
    let mut saturated = (own + 1..own + shape.blocks()).map(carried).take_while(|c| c.0 >= 255);
    let passed_over = carried(own).1;
    let runends = own * shape.block_len() + 9;
    saturated.any(|carry| carry == (255, 254))
        && carried(own).0 > passed_over
        && after.image()[(runends + passed_over / 8) as usize] >> (passed_over % 8) & 1 == 1
}
