//! Quick insert of one percent of the slots, up to the load.

use super::inputs::{Spread, holding};
use super::writing::Writer;
use crate::model::{Filter, Numbers, Shape};
use crate::proved::writing::insert;
use crate::seed::Rng;

/// Inserts, as a writer.
pub struct Insert;

impl Writer for Insert {
    const PART: &'static str = "insert";

    fn start(rng: &mut Rng, shape: Shape, load: u64, calls: u64) -> (Filter, Vec<u64>) {
        let filter = holding(rng, shape, Spread::Uniform, 0, load - calls);
        (filter, (0..calls).map(|_| rng.next()).collect())
    }

    fn original(filter: &mut qfilter::Filter, hash: u64) -> u64 {
        filter.insert_fingerprint_counting(u64::MAX, hash).expect("there is room")
    }

    fn proved(buffer: &mut [u8], n: &mut Numbers, hash: u64) -> u64 {
        let (count, after) = insert(true, buffer, *n, hash, u64::MAX).expect("there is room");
        *n = after;
        count
    }
}
