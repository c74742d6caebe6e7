//! The original crate as a subject. It is asked on images only, since it may loop for ever on
//! other buffers: on sound filters, and, for reading, on holdings above capacity.

use crate::call::{Answer, Call};
use crate::model::{Filter, Numbers, Place, Widths};
use crate::subject::Subject;
use qfilter::Error;

/// The crate's filter, and beside it the family, of which the crate knows nothing.
pub struct Original {
    filter: qfilter::Filter,
    family: u64,
}

/// The number that the rules give to the crate's error.
pub fn number_of(error: Error) -> u64 {
    match error {
        Error::CapacityExceeded => 7,
        Error::IncompatibleFingerprintSize => 8,
        Error::NotEnoughFingerprintBits => 9,
        Error::CapacityTooLarge => 10,
        _ => unreachable!("the crate has four errors"),
    }
}

/// The crate's filter from the model's.
pub fn from_model(filter: &Filter, image: &[u8]) -> qfilter::Filter {
    let n = filter.numbers();
    qfilter::Filter::from_parts(image, n.len, n.qbits, n.rbits, n.max_qbits)
}

/// The crate's record as the rules have it, of family 0.
pub fn numbers_of(filter: &qfilter::Filter) -> Numbers {
    let (len, qbits, rbits, max_qbits) = filter.parts();
    Numbers { len, qbits, rbits, max_qbits, family: 0 }
}

/// The crate's widths.
pub fn widths_of(filter: &qfilter::Filter) -> Widths {
    let (_, qbits, rbits, max_qbits) = filter.parts();
    Widths { qbits, rbits, max_qbits }
}

/// The fingerprints, and the iterator's own place before each of them.
pub fn listed(filter: &qfilter::Filter) -> (Vec<u64>, Vec<Place>) {
    let mut iter = filter.fingerprints();
    let (mut fingerprints, mut places) = (Vec::new(), Vec::new());
    loop {
        let (quotient, slot, remaining) = iter.place();
        let Some(fingerprint) = iter.next() else { break };
        fingerprints.push(fingerprint);
        places.push(Place { quotient, slot, remaining });
    }
    // The iterator's last place is left where it ran to; the rules have all 0 there.
    places.push(Place::default());
    (fingerprints, places)
}

impl Original {
    /// A filter that stands for none until one is loaded.
    pub fn new() -> Original {
        Original { filter: qfilter::Filter::from_parts(&[], 0, 6, 1, 0), family: 0 }
    }

    fn change(&mut self, call: &Call) -> Result<Answer, Error> {
        Ok(match *call {
            Call::Contains { hash } => {
                Answer::Held { held: self.filter.contains_fingerprint(hash), compared: None }
            }
            Call::Count { hash } => Answer::Count(self.filter.count_fingerprint(hash)),
            Call::Insert { hash, max_count } => {
                Answer::Count(self.filter.insert_without_growth(max_count, hash)?)
            }
            Call::InsertSpare { hash, max_count } => {
                let before = self.numbers().qbits;
                let count = self.filter.insert_fingerprint_counting(max_count, hash)?;
                Answer::Spare { count, in_spare: self.numbers().qbits != before }
            }
            Call::Remove { hash } => Answer::Removed(self.filter.remove_fingerprint(hash)),
            Call::List => {
                let (fingerprints, places) = listed(&self.filter);
                Answer::Listed { fingerprints, places }
            }
            Call::Grow => {
                self.filter = self.filter.grown()?;
                Answer::Written
            }
            Call::Merge { ref other, keep } => self.merge(other, keep)?,
        })
    }

    /// A refused merge of a wider filter stops halfway, a listed difference; so a copy is merged.
    fn merge(&mut self, other: &Filter, keep: bool) -> Result<Answer, Error> {
        let mut copy = self.filter.clone();
        copy.merge(keep, &from_model(other, &other.image()))?;
        self.filter = copy;
        Ok(Answer::Written)
    }
}

impl Subject for Original {
    fn name(&self) -> &'static str {
        "original"
    }

    fn load(&mut self, filter: &Filter, image: &[u8]) {
        self.filter = from_model(filter, image);
        self.family = filter.family;
    }

    fn ask(&mut self, call: &Call, _after: Numbers) -> Option<Answer> {
        Some(self.change(call).unwrap_or_else(|error| Answer::Refused(number_of(error))))
    }

    /// It adds for max_count 0, as it does for 1, and merges whatever families they are of.
    fn departs(&self, call: &Call) -> Option<Call> {
        call.with_one().or_else(|| call.in_family(self.family))
    }

    fn numbers(&self) -> Numbers {
        Numbers { family: self.family, ..numbers_of(&self.filter) }
    }

    fn bytes(&self) -> &[u8] {
        self.filter.buffer()
    }
}
