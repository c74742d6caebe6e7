//! Which calls the list has: every call on sound filters of several shapes, at the edges that
//! docs/RULES.md names, and every refusal.

use super::replay::{Line, Replay, widths};
use super::{rebuilds, refusals};
use crate::call::Call;
use crate::generate::Hashes;
use crate::model::Shape;
use crate::model::planning::MAX_CAPACITY;
use crate::seed::{Rng, SEED};

/// The largest number of a call.
pub const MAX: u64 = u64::MAX;

/// A step that spreads hashes over all quotients.
pub const SPREADING: u64 = 0x9e37_79b9_7f4a_7c15;

/// The whole list, replayed.
pub fn replayed() -> Replay {
    let mut replay = Replay::new();
    planning(&mut replay);
    examples(&mut replay);
    saturated(&mut replay);
    for (qbits, rbits) in [(6, 1), (6, 8), (6, 58), (7, 8), (8, 3), (9, 8)] {
        let shape = Shape { qbits, rbits };
        walk(&mut replay, shape, SPREADING);
        walk(&mut replay, shape, 1);
    }
    refusals::refusals(&mut replay);
    rebuilds::growths(&mut replay);
    rebuilds::spares(&mut replay);
    rebuilds::merges(&mut replay);
    replay
}

/// Makes all these calls.
pub fn each(replay: &mut Replay, lines: impl IntoIterator<Item = Line>) {
    lines.into_iter().for_each(|line| replay.call(line));
}

/// The family that most filters are of.
pub const FAMILY: u64 = 0xfedc_ba98_7654_3211;

/// An empty filter.
pub fn fresh(replay: &mut Replay, shape: Shape, max_qbits: u8) {
    fresh_of(replay, shape, max_qbits, FAMILY);
}

/// An empty filter of this family.
pub fn fresh_of(replay: &mut Replay, shape: Shape, max_qbits: u8, family: u64) {
    let widths = widths(shape.qbits, shape.rbits, max_qbits);
    replay.call(Line('f', shape.buffer_len(), widths, family));
}

/// Begun, and two steps at a time until it is done.
fn listed(replay: &mut Replay) {
    replay.call(Line('l', 0, 0, 0));
    for _ in 0..replay.filter().len() / 2 + 1 {
        replay.call(Line('S', 0, 0, 0));
    }
}

fn planning(replay: &mut Replay) {
    let selects = [(0, 0), (11, 2), (11, 3), (1 << 63, 0), (1 << 63, 1), (MAX, 63), (MAX, 64)];
    each(replay, selects.map(|(word, n)| Line('e', word, n, 0)));
    each(replay, [Line('e', MAX, 128, 0), Line('e', 0x8421_0842_1084_2108, 7, 0)]);
    let capacities = [0, 1, 61, 62, 122, 123, 1000, 1 << 40, MAX_CAPACITY, MAX_CAPACITY + 1, MAX];
    each(replay, capacities.map(|capacity| Line('q', capacity, 0, 0)));
    let rates = [0.01, 0.5, 0.3, 0.25, 1.0, 2.0, 0.0, -1.0, f64::INFINITY, f64::NAN, 1e-6, 1e-17];
    each(replay, rates.map(|rate: f64| Line('t', 1000, rate.to_bits(), 0)));
    let wide = 0.5f64.powi(57).to_bits();
    let (half, tenth) = (0.5f64.to_bits(), 0.1f64.to_bits());
    each(replay, [(0, wide), (61, wide), (62, wide), (123, wide), (MAX_CAPACITY, half)].map(spec));
    each(replay, [(MAX_CAPACITY, tenth), (MAX_CAPACITY + 1, half), (MAX, wide)].map(spec));
    let plans = [(0, 0, half), (10, 200, tenth), (61, 62, half), (100, 100, wide), (62, 500, wide)];
    each(replay, plans.map(|(initial, max, rate)| Line('w', initial, max, rate)));
    let plans = [(1, 0, half), (MAX, 5, half), (5, MAX, half), (5, MAX_CAPACITY, half)];
    each(replay, plans.map(|(initial, max, rate)| Line('w', initial, max, rate)));
    each(replay, [Line('w', 5, MAX_CAPACITY, wide), Line('w', 5, 700, f64::NAN.to_bits())]);
}

fn spec((capacity, rate): (u64, u64)) -> Line {
    Line('t', capacity, rate, 0)
}

/// docs/RULES.md, "Examples at the edges": those with 6/8.
fn examples(replay: &mut Replay) {
    let shape = Shape { qbits: 6, rbits: 8 };
    fresh(replay, shape, 0);
    listed(replay);
    each(replay, [0x203, 0x105, 0x103].map(|hash| Line('i', hash, MAX, 0)));
    replay.call(Line('k', 0, 0, 0));
    each(
        replay,
        [0x103, 0x104, 0x105, 0x106, 0x203, 0x7f0203, 0].map(|hash| Line('c', hash, 0, 0)),
    );
    listed(replay);
    // max_count 0 adds nothing and answers 0, whether the fingerprint is held or not.
    for max_count in [0, 1, 0, 1, 2, 0, 2, MAX] {
        replay.call(Line('i', 0x104, max_count, 0));
    }
    each(replay, [Line('I', 0x104, 0, 0), Line('I', 0x107, 0, 0)]);
    each(replay, [0x104, 0x105, 0x107].map(|hash| Line('n', hash, 0, 0)));
    each(replay, [0x104, 0x107, 0x103, 0x203, 0x105].map(|hash| Line('m', hash, 0, 0)));
    listed(replay);
    // Three copies in the last quotient go round.
    fresh(replay, shape, 0);
    each(replay, [Line('i', 0x3f07, MAX, 0); 3]);
    each(replay, [Line('c', 0x3f07, 0, 0), Line('n', 0x3f07, 0, 0)]);
    listed(replay);
    each(replay, [Line('i', 0x0001, 1, 0), Line('a', 0x3e09, 0, 4), Line('k', 0, 0, 0)]);
    listed(replay);
    each(replay, [Line('m', 0x3f07, 0, 0); 4]);
    at_capacity(replay, shape);
}

/// 61 held in 64 slots, then two more by the bytes alone, with the lens 62, 64 and 65, which do not
/// count them, and 63, which does; at last 61 again.
fn at_capacity(replay: &mut Replay, shape: Shape) {
    fresh(replay, shape, 0);
    each(replay, [Line('a', 0, 0x100, 61), Line('i', 0x3d00, 1, 0), Line('i', 0x3c00, 1, 0)]);
    for hash in [0x3c00, 0x3d00] {
        each(replay, [Line('i', hash, 0, 0), Line('I', hash, 0, 0)]);
    }
    each(replay, [Line('b', 8, 0x7f, 0), Line('b', 16, 0x7f, 0), Line('k', 0, 0, 0)]);
    for len in [62, 64, 65, 63] {
        each(replay, [Line('r', len, widths(6, 8, 0), 89), Line('k', 0, 0, 0)]);
    }
    each(replay, [Line('i', 0x3f00, 1, 0), Line('I', 0x3e00, 1, 0), Line('n', 0x3e00, 0, 0)]);
    // A wider one is not merged with it, nor it with the wider one.
    replay.call(Line('o', 0, 0, 0));
    fresh(replay, Shape { qbits: 6, rbits: 9 }, 0);
    each(replay, [Line('a', 0, 0x100, 20), Line('j', 97, 1, 0)]);
    each(replay, [Line('o', 0, 0, 0), Line('j', 89, 0, 0)]);
    // Put right it is full: what adds nothing is merged.
    each(replay, [Line('b', 8, 0x1f, 0), Line('b', 16, 0x1f, 0)]);
    each(replay, [Line('r', 61, widths(6, 8, 0), 89), Line('k', 0, 0, 0), Line('j', 89, 0, 0)]);
    each(replay, [Line('j', 89, 1, 0), Line('m', 0x3e00, 0, 0), Line('m', 0, 0, 0)]);
}

/// Offsets at 255 and just below: 9/8 with 400 copies in quotient 0, taken down past the place
/// where the third block's carry goes from 255 to 254, and up again.
fn saturated(replay: &mut Replay) {
    fresh(replay, Shape { qbits: 9, rbits: 8 }, 0);
    each(replay, [Line('a', 0x07, 0, 400), Line('k', 0, 0, 0), Line('n', 0x07, 0, 0)]);
    each(replay, [Line('c', 0x07, 0, 0), Line('c', 0x08, 0, 0), Line('i', 0x06, MAX, 0)]);
    // Runs in blocks whose stored offset isn't the carry.
    each(replay, [Line('i', 0x4105, MAX, 0), Line('i', 0x8503, MAX, 0), Line('c', 0x4105, 0, 0)]);
    each(replay, [Line('n', 0x8503, 0, 0), Line('m', 0x4105, 0, 0), Line('M', 0x8503, 0, 0)]);
    each(replay, [Line('m', 0x06, 0, 0), Line('m', 0x07, 0, 0), Line('x', 0x07, 0, 14)]);
    each(replay, [Line('m', 0x07, 0, 0); 5]);
    each(replay, [Line('i', 0x07, MAX, 0); 4]);
    each(replay, [Line('b', 243, 255, 0), Line('k', 0, 0, 0), Line('b', 243, 192, 0)]);
    each(replay, [Line('a', 0x1_4000, 0x100, 40), Line('k', 0, 0, 0), Line('x', 0x07, 0, 300)]);
    each(replay, [Line('k', 0, 0, 0), Line('n', 0x07, 0, 0)]);
}

/// Near capacity, where clusters are long: a walk up to it and down again, with a seed of its own.
fn walk(replay: &mut Replay, shape: Shape, step: u64) {
    let mut rng = Rng::new(SEED, &format!("vectors {}/{} {step:x}", shape.qbits, shape.rbits));
    fresh(replay, shape, 0);
    replay.call(Line('a', rng.next(), step, shape.capacity() - 2));
    let hashes = Hashes::spread(&mut rng, shape);
    let calls = hashes.up_and_down(&mut rng, &replay.filter(), 18);
    for call in calls {
        replay.call(line(call, rng.one_in(2)));
    }
    replay.call(Line('k', 0, 0, 0));
    let first = replay.filter().held[0];
    each(
        replay,
        [Line('n', first, 0, 0), Line('l', 0, 0, 0), Line('S', 0, 0, 0), Line('s', 0, 0, 0)],
    );
    replay.call(Line('x', first, step, shape.slots() / 2));
    replay.call(Line('k', 0, 0, 0));
}

fn line(call: Call, quick: bool) -> Line {
    let letter = |checked: char| if quick { checked.to_ascii_uppercase() } else { checked };
    match call {
        Call::Contains { hash } => Line(letter('c'), hash, 0, 0),
        Call::Count { hash } => Line(letter('n'), hash, 0, 0),
        Call::Insert { hash, max_count } => Line(letter('i'), hash, max_count, 0),
        Call::Remove { hash } => Line(letter('m'), hash, 0, 0),
        other => panic!("{other:?} is no call of a walk"),
    }
}
