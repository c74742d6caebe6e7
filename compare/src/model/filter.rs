//! docs/RULES.md, "Lookup and count", "Insert", "Remove" and "Listing", on the holding itself.

use super::image::{carries, image};
use super::{Numbers, Place, Shape};

/// A filter: its numbers, and what it holds in ascending order. Within capacity it is sound.
#[derive(Clone, PartialEq, Eq, Debug)]
pub struct Filter {
    pub shape: Shape,
    pub max_qbits: u8,
    pub family: u64,
    pub held: Vec<u64>,
}

impl Filter {
    /// The filter of this holding, given in any order and within capacity; of family 0.
    pub fn new(shape: Shape, max_qbits: u8, mut held: Vec<u64>) -> Filter {
        assert!(shape.allows(max_qbits) && held.len() as u64 <= shape.capacity());
        held.sort_unstable();
        Filter { shape, max_qbits, family: 0, held }
    }

    /// The same in another family.
    pub fn of_family(self, family: u64) -> Filter {
        Filter { family, ..self }
    }

    /// How many are held.
    pub fn len(&self) -> u64 {
        self.held.len() as u64
    }

    /// The record.
    pub fn numbers(&self) -> Numbers {
        let (Shape { qbits, rbits }, family) = (self.shape, self.family);
        Numbers { len: self.len(), qbits, rbits, max_qbits: self.max_qbits, family }
    }

    /// The bytes.
    pub fn image(&self) -> Vec<u8> {
        image(self.shape, &self.held)
    }

    /// The run of a quotient: its fingerprints, ascending.
    fn run(&self, quotient: u64) -> &[u64] {
        let before = |q: u64| self.held.partition_point(|&f| self.shape.quotient(f) < q);
        &self.held[before(quotient)..before(quotient + 1)]
    }

    /// Whether it is held, and how many remainders were compared.
    pub fn contains(&self, hash: u64) -> (bool, u64) {
        let fingerprint = self.shape.fingerprint(hash);
        let run = self.run(self.shape.quotient(fingerprint));
        match run.iter().position(|&f| f == fingerprint) {
            Some(place) => (true, place as u64 + 1),
            None => (false, run.len() as u64),
        }
    }

    /// How often it is held.
    pub fn count(&self, hash: u64) -> u64 {
        let fingerprint = self.shape.fingerprint(hash);
        let run = self.run(self.shape.quotient(fingerprint));
        run.iter().filter(|&&f| f == fingerprint).count() as u64
    }

    /// One copy more if fewer than max_count are held; answers the smaller of the two.
    pub fn insert(&mut self, hash: u64, max_count: u64) -> Result<u64, u64> {
        let held = self.count(hash);
        if held >= max_count {
            return Ok(max_count);
        }
        if self.len() >= self.shape.capacity() {
            return Err(7);
        }
        self.add(hash);
        Ok(held)
    }

    /// One copy more, whatever the capacity says.
    pub fn add(&mut self, hash: u64) {
        let fingerprint = self.shape.fingerprint(hash);
        let place = self.held.partition_point(|&f| f < fingerprint);
        self.held.insert(place, fingerprint);
    }

    /// One copy fewer, if any.
    pub fn remove(&mut self, hash: u64) -> bool {
        let found = self.held.binary_search(&self.shape.fingerprint(hash));
        found.map(|place| self.held.remove(place)).is_ok()
    }

    /// The place before each fingerprint, and the one at the end, all 0.
    pub fn places(&self) -> Vec<Place> {
        let carry = carries(self.shape, &self.held);
        let mut places = Vec::with_capacity(self.held.len() + 1);
        let mut remaining = self.len();
        for run in self.held.chunk_by(|&a, &b| self.shape.quotient(a) == self.shape.quotient(b)) {
            let quotient = self.shape.quotient(run[0]);
            let first = quotient + carry[quotient as usize];
            for slot in first..first + run.len() as u64 {
                let slot = slot % self.shape.slots();
                places.push(Place { quotient, slot, remaining });
                remaining -= 1;
            }
        }
        places.push(Place::default());
        places
    }
}
