//! Quick remove of one percent of the slots, down from the load.

use super::inputs::{Spread, holding};
use super::writing::Writer;
use crate::model::{Filter, Numbers, Shape};
use crate::proved::writing::remove;
use crate::seed::Rng;

/// Removes, as a writer.
pub struct Remove;

impl Writer for Remove {
    const PART: &'static str = "remove";

    fn start(rng: &mut Rng, shape: Shape, load: u64, calls: u64) -> (Filter, Vec<u64>) {
        let filter = holding(rng, shape, Spread::Uniform, 0, load);
        let mut hashes = filter.held.clone();
        rng.shuffle(&mut hashes);
        hashes.truncate(calls as usize);
        (filter, hashes)
    }

    fn original(filter: &mut qfilter::Filter, hash: u64) -> u64 {
        filter.remove_fingerprint(hash).into()
    }

    fn proved(buffer: &mut [u8], n: &mut Numbers, hash: u64) -> u64 {
        let (removed, after) = remove(true, buffer, *n, hash).expect("nothing is due");
        *n = after;
        removed
    }
}
