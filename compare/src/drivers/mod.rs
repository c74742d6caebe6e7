//! One driver for each theme. Each prints its counts in its last line, and ends the run with the
//! smallest input it has if anything disagrees.

mod aimed;
mod counts;
mod examples;
mod growth;
mod inputs;
mod merges;
pub mod planning;
mod program;
mod reads;
mod select;
mod writes;

#[cfg(feature = "proved")]
mod damage;
#[cfg(feature = "proved")]
mod destinations;
#[cfg(feature = "proved")]
mod lengths;
#[cfg(feature = "proved")]
mod refusals;

use crate::model::Shape;

/// How much of everything.
#[derive(Clone, Copy)]
pub struct Effort {
    pub seed: u64,
    /// 1 in short mode.
    pub times: u64,
}

/// A name for `--only`, and what it runs.
pub type Driver = (&'static str, fn(Effort));

/// Every driver of this build, in the order they run.
pub const ALL: &[Driver] = &[
    ("examples", examples::drive),
    ("select", select::drive),
    ("planning", planning::drive),
    ("reads", reads::drive),
    ("writes", writes::drive),
    ("counts", counts::drive),
    ("aimed", aimed::drive),
    ("growth", growth::drive),
    ("merges", merges::drive),
    ("program", program::drive),
    ("vectors", |_| crate::vectors::compare()),
    #[cfg(feature = "proved")]
    ("lengths", lengths::drive),
    #[cfg(feature = "proved")]
    ("damage", damage::drive),
    #[cfg(feature = "proved")]
    ("refusals", refusals::drive),
    #[cfg(feature = "proved")]
    ("destinations", destinations::drive),
];

/// The shapes that every sequence driver goes through.
const SHAPES: [(u8, u8); 12] = [
    (6, 1),
    (6, 8),
    (6, 58),
    (7, 8),
    (7, 57),
    (8, 3),
    (8, 40),
    (9, 8),
    (9, 55),
    (10, 5),
    (11, 2),
    (13, 8),
];

fn shapes() -> impl Iterator<Item = Shape> {
    SHAPES.iter().map(|&(qbits, rbits)| Shape { qbits, rbits })
}
