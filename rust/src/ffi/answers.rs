//! What the calls give back: the number of a refusal, or 0, and then the answer. A refusal leaves
//! the answer 0, and a record or a place as it was given.

use crate::{Numbers, Place, Specs, Widths};

/// A value.
#[repr(C)]
pub struct Outcome {
    /// Why it was refused, or 0.
    pub number: u64,
    /// The value asked for.
    pub value: u64,
}

/// What a filter takes and gives.
#[repr(C)]
pub struct Specified {
    /// Why it was refused, or 0.
    pub number: u64,
    /// The specs asked for.
    pub specs: Specs,
}

/// Planned widths.
#[repr(C)]
pub struct Planned {
    /// Why it was refused, or 0.
    pub number: u64,
    /// The widths asked for.
    pub widths: Widths,
}

/// What a lookup found.
#[repr(C)]
pub struct Looked {
    /// Why it was refused, or 0.
    pub number: u64,
    /// 1 if the fingerprint is held, else 0.
    pub held: u64,
    /// The remainders compared to find out.
    pub compared: u64,
}

/// Where a listing begins.
#[repr(C)]
pub struct First {
    /// Why it was refused, or 0.
    pub number: u64,
    /// The place of the first step.
    pub place: Place,
}

/// A step of a listing.
#[repr(C)]
pub struct Next {
    /// Why it was refused, or 0.
    pub number: u64,
    /// 1 if there was a fingerprint, 0 if the listing is done.
    pub found: u64,
    /// The fingerprint.
    pub fingerprint: u64,
    /// The place of the next step.
    pub place: Place,
}

/// A writer's answer with the record from now on.
#[repr(C)]
pub struct Changed {
    /// Why it was refused, or 0.
    pub number: u64,
    /// What the call answers.
    pub answer: u64,
    /// The record of the buffer that was written.
    pub numbers: Numbers,
}

/// The answer of an insert with a spare, with the record from now on.
#[repr(C)]
pub struct SpareAnswer {
    /// Why it was refused, or 0.
    pub number: u64,
    /// What the insert answers.
    pub answer: u64,
    /// 1 if the spare holds the filter now, 0 if the old buffer does.
    pub in_spare: u64,
    /// The record of the buffer that holds it.
    pub numbers: Numbers,
}
