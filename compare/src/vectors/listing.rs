//! A listing by the original's own iterator.

use crate::model::Place;
use crate::original::listed;

/// A listing: what it gives, every place, and how far it is.
#[derive(Default)]
pub struct Listing {
    fingerprints: Vec<u64>,
    places: Vec<Place>,
    at: usize,
}

impl Listing {
    /// The whole listing of a filter, at its beginning.
    pub fn of(filter: &qfilter::Filter) -> Listing {
        let (fingerprints, places) = listed(filter);
        Listing { fingerprints, places, at: 0 }
    }

    /// The next fingerprint, in words.
    pub fn step(&mut self) -> String {
        let Some(fingerprint) = self.fingerprints.get(self.at) else {
            return "done".into();
        };
        self.at += 1;
        format!("fingerprint {fingerprint:016x}")
    }

    /// Where the original's iterator stands; at the end the rules have all 0.
    pub fn place(&self) -> String {
        let Place { quotient, slot, remaining } =
            self.places.get(self.at).copied().unwrap_or_default();
        format!(" {quotient} {slot} {remaining}")
    }
}
