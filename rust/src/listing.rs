//! Everything a filter holds, one fingerprint at a time.

use crate::{Error, Filter, Numbers, Place, Result, ffi};
use core::iter::FusedIterator;

/// The fingerprints of a filter, ascending, each as often as held.
#[derive(Clone, Debug)]
pub struct Fingerprints<'a> {
    buffer: &'a [u8],
    numbers: Numbers,
    place: Place,
}

impl<B: AsRef<[u8]>> Filter<B> {
    /// An iterator over the fingerprints. Its beginning is checked: 1 to 6.
    ///
    /// ```
    /// # use strumblay::{Error, Filter, Widths};
    /// let mut filter = Filter::new(Widths::new(6, 8).family(1))?;
    /// for hash in [0x3f07, 0x0103, 0x3f07] {
    ///     filter.insert(hash, u64::MAX)?;
    /// }
    /// let listed: Vec<u64> = filter.fingerprints()?.collect();
    /// assert_eq!(listed, [0x0103, 0x3f07, 0x3f07]);
    /// # Ok::<(), Error>(())
    /// ```
    pub fn fingerprints(&self) -> Result<Fingerprints<'_>> {
        let place = self.first()?;
        Ok(Fingerprints { buffer: self.buffer(), numbers: self.numbers, place })
    }

    /// The place where a listing begins. Checked: 1 to 6.
    pub fn first(&self) -> Result<Place> {
        let first = ffi::list_begin(self.buffer(), self.numbers);
        Error::unless(first.number, first.place)
    }

    /// The fingerprint at a place, which moves on by one, or none when the listing is done; then
    /// it stays done. Refuses 1 to 5 and leaves the place.
    ///
    /// At a place that is not this listing's, or after the filter changed, it gives anything.
    ///
    /// ```
    /// # use strumblay::{Error, Filter, Place, Widths};
    /// let mut filter = Filter::new(Widths::new(6, 8).family(1))?;
    /// filter.insert(0x0103, 1)?;
    /// let mut place = filter.first()?;
    /// assert_eq!(place, Place { quotient: 1, slot: 1, remaining: 1 });
    /// assert_eq!(filter.step(&mut place)?, Some(0x0103));
    /// assert_eq!(filter.step(&mut place)?, None);
    /// # Ok::<(), Error>(())
    /// ```
    pub fn step(&self, place: &mut Place) -> Result<Option<u64>> {
        let next = ffi::list_step(self.buffer(), self.numbers, *place);
        *place = next.place;
        Error::unless(next.number, (next.found == 1).then_some(next.fingerprint))
    }
}

impl Fingerprints<'_> {
    /// Where the listing stands.
    pub const fn place(&self) -> Place {
        self.place
    }
}

impl Iterator for Fingerprints<'_> {
    type Item = u64;

    /// The borrowed filter can't have changed since its beginning was checked, so that a step
    /// isn't refused.
    fn next(&mut self) -> Option<u64> {
        let next = ffi::list_step(self.buffer, self.numbers, self.place);
        self.place = next.place;
        (next.found == 1).then_some(next.fingerprint)
    }

    fn size_hint(&self) -> (usize, Option<usize>) {
        let remaining = self.place.remaining as usize;
        (remaining, Some(remaining))
    }
}

impl ExactSizeIterator for Fingerprints<'_> {}

impl FusedIterator for Fingerprints<'_> {}
