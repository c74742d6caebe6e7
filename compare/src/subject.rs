//! What is compared with the model: anything that keeps a filter and answers calls.

use crate::call::{Answer, Call};
use crate::model::{Filter, Numbers};

/// The original, or the proved library by one kind of its calls.
pub trait Subject {
    /// The name in reports.
    fn name(&self) -> &'static str;

    /// Takes over a sound filter.
    fn load(&mut self, filter: &Filter, image: &[u8]);

    /// Answers a call, or none if this subject doesn't offer it. `after` is the record that the
    /// model has afterwards; it tells how long a destination must be.
    fn ask(&mut self, call: &Call, after: Numbers) -> Option<Answer>;

    /// Where the subject departs from the rules in a way that is known: the call whose outcome
    /// this one has there.
    fn departs(&self, _call: &Call) -> Option<Call> {
        None
    }

    /// The record now.
    fn numbers(&self) -> Numbers;

    /// The bytes now.
    fn bytes(&self) -> &[u8];
}

/// Every subject of this build.
pub fn all() -> Vec<Box<dyn Subject>> {
    vec![
        Box::new(crate::original::Original::new()),
        #[cfg(feature = "proved")]
        Box::new(crate::proved::subject::Proved::checked()),
        #[cfg(feature = "proved")]
        Box::new(crate::proved::subject::Proved::quick()),
    ]
}
