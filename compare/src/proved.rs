//! The proved library, by the Rust crate's declarations of it. A refusal must come alone: whatever
//! else the call gives is 0, or as it was lent.

pub mod guarded;
pub mod planning;
pub mod raw;
pub mod reading;
pub mod subject;
pub mod writing;

use crate::model::Numbers;
use strumblay::ffi::{Changed, Outcome};

/// Stands for a refusal that came with more than its number; the rules have no such number.
const NOT_ALONE: u64 = 999;

/// The number of a refusal whose other fields must be as they should.
fn refused(number: u64, alone: bool) -> u64 {
    if alone { number } else { NOT_ALONE }
}

/// What a call gives, or its refusal.
fn unless_refused<T>(number: u64, alone: bool, given: T) -> Result<T, u64> {
    if number == 0 { Ok(given) } else { Err(refused(number, alone)) }
}

/// The value, or the number alone: the value is 0 on a refusal.
fn value_of(got: Outcome) -> Result<u64, u64> {
    unless_refused(got.number, got.value == 0, got.value)
}

/// The answer and the record, or the number alone: the record stays as it was lent.
fn change_of(got: Changed, lent: Numbers) -> Result<(u64, Numbers), u64> {
    let alone = got.answer == 0 && got.numbers == lent;
    unless_refused(got.number, alone, (got.answer, got.numbers))
}
