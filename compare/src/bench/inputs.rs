//! Filters of a load and hashes to ask them.

use crate::model::{Filter, Shape};
use crate::original::from_model;
use crate::seed::Rng;
use std::collections::HashSet;

/// Where the quotients of a filter fall.
#[derive(Clone, Copy)]
pub enum Spread {
    Uniform,
    /// So many windows of 64 quotients in a row.
    Windows(u64),
}

/// A shape in short.
pub fn shape(qbits: u8, rbits: u8) -> Shape {
    Shape { qbits, rbits }
}

/// So many percent of the slots.
pub fn percent(shape: Shape, load: u64) -> u64 {
    shape.slots() * load / 100
}

/// A hash of the spread, with anything above the width.
pub fn hash(rng: &mut Rng, shape: Shape, spread: Spread) -> u64 {
    let Spread::Windows(windows) = spread else {
        return rng.next();
    };
    let window = rng.below(windows) * shape.slots() / windows;
    let fingerprint = shape.join(window + rng.below(64), rng.below(1 << shape.rbits));
    above(rng, shape, fingerprint)
}

/// The fingerprint with other bits above it.
fn above(rng: &mut Rng, shape: Shape, fingerprint: u64) -> u64 {
    fingerprint | rng.next() & !(u64::MAX >> (64 - shape.width()))
}

/// So many fingerprints of the spread.
pub fn holding(rng: &mut Rng, shape: Shape, spread: Spread, max_qbits: u8, len: u64) -> Filter {
    let held = (0..len).map(|_| shape.fingerprint(hash(rng, shape, spread))).collect();
    Filter::new(shape, max_qbits, held)
}

/// The crate's filter of a holding.
pub fn of_crate(filter: &Filter) -> qfilter::Filter {
    from_model(filter, &filter.image())
}

/// Which of the hashes asked are held.
#[derive(Clone, Copy, PartialEq)]
pub enum Asked {
    Half,
    Held,
    Absent,
}

/// So many hashes to look up, the held ones and the others mixed.
pub fn lookups(
    rng: &mut Rng,
    filter: &Filter,
    spread: Spread,
    asked: Asked,
    number: usize,
) -> Vec<u64> {
    let all: HashSet<u64> = filter.held.iter().copied().collect();
    let absent = |rng: &mut Rng| loop {
        let hash = hash(rng, filter.shape, spread);
        if !all.contains(&filter.shape.fingerprint(hash)) {
            return hash;
        }
    };
    let one = |_| {
        let held = asked == Asked::Held || asked == Asked::Half && rng.one_in(2);
        if !held {
            return absent(rng);
        }
        let fingerprint = rng.pick(&filter.held);
        above(rng, filter.shape, fingerprint)
    };
    (0..number).map(one).collect()
}

/// A digest of bytes, to see that two buffers are alike.
pub fn digest(bytes: &[u8]) -> u64 {
    let mix = |sum: u64, word: &[u8]| {
        let word = word.iter().fold(0, |word, &byte| word << 8 | u64::from(byte));
        (sum ^ word).wrapping_mul(0x9e37_79b9_7f4a_7c15).rotate_left(29)
    };
    bytes.chunks(8).fold(bytes.len() as u64, mix)
}
