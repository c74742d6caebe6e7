//! The calls on a filter and their answers, and what the model says to each.

use crate::model::{self, Filter, Numbers, Place, Shape};

/// A call on one filter.
#[derive(Clone, Debug)]
pub enum Call {
    Contains { hash: u64 },
    Count { hash: u64 },
    Insert { hash: u64, max_count: u64 },
    InsertSpare { hash: u64, max_count: u64 },
    Remove { hash: u64 },
    List,
    Grow,
    Merge { other: Filter, keep: bool },
}

impl Call {
    /// Whether the bytes may be others afterwards.
    pub fn writes(&self) -> bool {
        !matches!(self, Call::Contains { .. } | Call::Count { .. } | Call::List)
    }

    /// An insert with max_count 0 as one with max_count 1, which is what the original makes of it.
    pub fn with_one(&self) -> Option<Call> {
        match *self {
            Call::Insert { hash, max_count: 0 } => Some(Call::Insert { hash, max_count: 1 }),
            Call::InsertSpare { hash, max_count: 0 } => {
                Some(Call::InsertSpare { hash, max_count: 1 })
            }
            _ => None,
        }
    }

    /// A merge with a filter of another family as one within this, which is what the original makes
    /// of it.
    pub fn in_family(&self, family: u64) -> Option<Call> {
        match self {
            Call::Merge { other, keep } if other.family != family => {
                Some(Call::Merge { other: other.clone().of_family(family), keep: *keep })
            }
            _ => None,
        }
    }
}

/// What a call answers.
#[derive(Clone, PartialEq, Eq, Debug)]
pub enum Answer {
    Refused(u64),
    /// The original doesn't say how many it compared.
    Held {
        held: bool,
        compared: Option<u64>,
    },
    Count(u64),
    Removed(bool),
    Spare {
        count: u64,
        in_spare: bool,
    },
    Listed {
        fingerprints: Vec<u64>,
        places: Vec<Place>,
    },
    Written,
    /// Something that no answer may do, such as a byte altered outside the buffer.
    Broken(&'static str),
}

impl Answer {
    /// The one thing that even an answer that isn't fixed must not do.
    pub const OUTSIDE: Answer = Answer::Broken("a byte outside the buffer was altered");

    /// Equal as far as the answer goes into it.
    pub fn agrees(&self, expected: &Answer) -> bool {
        match (self, expected) {
            (Answer::Held { held, compared: None }, Answer::Held { held: right, .. }) => {
                held == right
            }
            _ => self == expected,
        }
    }
}

/// The model's answer; the filter becomes what it is afterwards.
pub fn ask_model(filter: &mut Filter, call: &Call) -> Answer {
    match change(filter, call) {
        Ok(answer) => answer,
        Err(number) => Answer::Refused(number),
    }
}

fn change(filter: &mut Filter, call: &Call) -> Result<Answer, u64> {
    Ok(match *call {
        Call::Contains { hash } => {
            let (held, compared) = filter.contains(hash);
            Answer::Held { held, compared: Some(compared) }
        }
        Call::Count { hash } => Answer::Count(filter.count(hash)),
        Call::Insert { hash, max_count } => Answer::Count(filter.insert(hash, max_count)?),
        Call::InsertSpare { hash, max_count } => {
            let spare_len = grown_len(filter.numbers());
            let (count, in_spare) = model::insert_spare(filter, hash, max_count, spare_len)?;
            Answer::Spare { count, in_spare }
        }
        Call::Remove { hash } => Answer::Removed(filter.remove(hash)),
        Call::List => Answer::Listed { fingerprints: filter.held.clone(), places: filter.places() },
        Call::Grow => {
            *filter = filter.grow()?;
            Answer::Written
        }
        Call::Merge { ref other, keep } => {
            *filter = filter.merge(other, keep)?;
            Answer::Written
        }
    })
}

/// The length that growth asks of its destination; any will do where growth gives 7.
pub fn grown_len(numbers: Numbers) -> u64 {
    let grown = Shape::new(numbers.qbits.saturating_add(1), numbers.rbits.saturating_sub(1));
    grown.map_or(0, Shape::buffer_len)
}
