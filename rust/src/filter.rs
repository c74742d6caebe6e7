//! A filter: a buffer with its record.

use crate::{Error, Fresh, Numbers, Result, ffi};
use alloc::vec;
use alloc::vec::Vec;
use core::fmt;

/// What a lookup found.
#[derive(Clone, Copy, PartialEq, Eq, Debug)]
pub struct Lookup {
    /// Whether the fingerprint is held.
    pub held: bool,
    /// The remainders compared to find out.
    pub compared: u64,
}

/// A filter over a buffer: `Vec<u8>`, `&mut [u8]`, or `&[u8]` for reading.
///
/// Only the low qbits + rbits bits of a hash count. Two filters are equal if their buffers and their
/// whole records are, max_qbits and family included.
///
/// ```
/// use strumblay::{Error, Filter, Widths};
///
/// let widths = Widths::new(6, 8);
/// let mut bytes = [0; 89];
/// let mut filter = Filter::fresh(&mut bytes[..], widths.family(1))?;
/// for hash in [0x0203, 0x0103, 0x0105] {
///     filter.insert(hash, 1)?;
/// }
/// let numbers = filter.numbers();
///
/// let view = Filter::from_parts(&bytes[..], numbers);
/// assert!(view.fingerprints()?.eq([0x0103, 0x0105, 0x0203]));
/// # Ok::<(), Error>(())
/// ```
#[derive(Clone, Copy, PartialEq, Eq)]
pub struct Filter<B> {
    pub(crate) buffer: B,
    pub(crate) numbers: Numbers,
}

impl<B> Filter<B> {
    /// A filter from its parts, which nobody has looked at yet: every call asks for itself. The
    /// family is believed, as nothing in the buffer tells it.
    pub const fn from_parts(buffer: B, numbers: Numbers) -> Filter<B> {
        Filter { buffer, numbers }
    }

    /// The buffer and the record, to be saved.
    pub fn into_parts(self) -> (B, Numbers) {
        (self.buffer, self.numbers)
    }

    /// The record.
    pub const fn numbers(&self) -> Numbers {
        self.numbers
    }

    /// The family that its fingerprints are of.
    pub const fn family(&self) -> u64 {
        self.numbers.family
    }

    /// How many fingerprints are held.
    pub const fn len(&self) -> u64 {
        self.numbers.len
    }

    /// Whether none is held.
    pub const fn is_empty(&self) -> bool {
        self.numbers.len == 0
    }
}

impl Filter<Vec<u8>> {
    /// An empty filter in a buffer of its own, of [`Widths`](crate::Widths) and a
    /// [family](crate::Widths::family). Refuses 1, 4.
    pub fn new(fresh: Fresh) -> Result<Filter<Vec<u8>>> {
        let buffer = vec![0; fresh.widths.buffer_len()?];
        Filter::fresh(buffer, fresh)
    }
}

impl<B: AsRef<[u8]>> Filter<B> {
    /// The bytes.
    pub fn buffer(&self) -> &[u8] {
        self.buffer.as_ref()
    }

    /// The same filter, borrowed for reading.
    pub fn view(&self) -> Filter<&[u8]> {
        Filter { buffer: self.buffer(), numbers: self.numbers }
    }

    /// Whether the filter is sound. Refuses the lowest of 1 to 6 that is due.
    pub fn check(&self) -> Result<()> {
        Error::unless(ffi::check(self.buffer(), self.numbers), ())
    }

    /// Whether a fingerprint is held, checked: 1 to 6.
    pub fn contains(&self, hash: u64) -> Result<bool> {
        self.lookup(hash).map(|found| found.held)
    }

    /// Whether a fingerprint is held, quick: 1 to 5.
    ///
    /// ```
    /// # use strumblay::{Error, Filter, Widths};
    /// let mut filter = Filter::new(Widths::new(13, 8).family(1))?;
    /// filter.insert_quick(0x7a_31c5, 1)?;
    /// assert!(filter.contains_quick(0x7a_31c5)?);
    /// // The hash's bits above the 21 don't count.
    /// assert!(filter.contains_quick(0x9a_31c5)? && !filter.contains_quick(0x6a_31c5)?);
    /// # Ok::<(), Error>(())
    /// ```
    pub fn contains_quick(&self, hash: u64) -> Result<bool> {
        self.lookup_quick(hash).map(|found| found.held)
    }

    /// As [`contains`](Self::contains), and how many remainders were compared.
    pub fn lookup(&self, hash: u64) -> Result<Lookup> {
        found(ffi::contains(self.buffer(), self.numbers, hash))
    }

    /// As [`contains_quick`](Self::contains_quick), and how many remainders were compared.
    pub fn lookup_quick(&self, hash: u64) -> Result<Lookup> {
        found(ffi::contains_quick(self.buffer(), self.numbers, hash))
    }

    /// How often a fingerprint is held, checked: 1 to 6.
    pub fn count(&self, hash: u64) -> Result<u64> {
        let got = ffi::count(self.buffer(), self.numbers, hash);
        Error::unless(got.number, got.value)
    }

    /// How often a fingerprint is held, quick: 1 to 5.
    pub fn count_quick(&self, hash: u64) -> Result<u64> {
        let got = ffi::count_quick(self.buffer(), self.numbers, hash);
        Error::unless(got.number, got.value)
    }
}

fn found(looked: ffi::Looked) -> Result<Lookup> {
    Error::unless(looked.number, Lookup { held: looked.held == 1, compared: looked.compared })
}

impl<B: AsMut<[u8]>> Filter<B> {
    /// Makes the buffer an empty filter of these widths and this family, whatever it held. Refuses 1,
    /// 4, and 12 for its length.
    pub fn fresh(mut buffer: B, fresh: Fresh) -> Result<Filter<B>> {
        let made = ffi::fresh(fresh, buffer.as_mut());
        Error::unless(made.number, Filter { buffer, numbers: made.numbers })
    }

    /// One copy more if fewer than `max_count` are held; answers the smaller of the two, the copies
    /// held before and `max_count`. With 0 it answers 0, whatever is held, and changes nothing.
    /// Checked: 1 to 6, then 7 where a copy is due and the filter is at its capacity.
    ///
    /// ```
    /// # use strumblay::{Error, Filter, Widths};
    /// let mut filter = Filter::new(Widths::new(6, 8).family(1))?;
    /// assert_eq!(filter.insert(0x0103, 2)?, 0);
    /// assert_eq!(filter.insert(0x0103, 2)?, 1);
    /// assert_eq!(filter.insert(0x0103, 2)?, 2);
    /// assert_eq!(filter.insert(0x0103, 0)?, 0);
    /// assert_eq!((filter.count(0x0103)?, filter.len()), (2, 2));
    /// # Ok::<(), Error>(())
    /// ```
    pub fn insert(&mut self, hash: u64, max_count: u64) -> Result<u64> {
        let changed = ffi::insert(self.buffer.as_mut(), self.numbers, hash, max_count);
        self.take(changed)
    }

    /// As [`insert`](Self::insert), quick: 1 to 5, 7. On any buffer, neither a refusal nor an insert
    /// with `max_count` 0 has changed anything.
    pub fn insert_quick(&mut self, hash: u64, max_count: u64) -> Result<u64> {
        let changed = ffi::insert_quick(self.buffer.as_mut(), self.numbers, hash, max_count);
        self.take(changed)
    }

    /// One copy fewer; answers whether there was one. Checked: 1 to 6.
    ///
    /// ```
    /// # use strumblay::{Error, Filter, Widths};
    /// let mut filter = Filter::new(Widths::new(6, 8).family(1))?;
    /// filter.insert(0x0103, 1)?;
    /// assert!(filter.remove(0x0103)? && !filter.remove(0x0103)?);
    /// assert_eq!(filter, Filter::new(Widths::new(6, 8).family(1))?);
    /// # Ok::<(), Error>(())
    /// ```
    pub fn remove(&mut self, hash: u64) -> Result<bool> {
        let changed = ffi::remove(self.buffer.as_mut(), self.numbers, hash);
        self.take(changed).map(|removed| removed == 1)
    }

    /// As [`remove`](Self::remove), quick: 1 to 5. On a buffer that is not sound it may give 6,
    /// and may have altered blocks by then.
    pub fn remove_quick(&mut self, hash: u64) -> Result<bool> {
        let changed = ffi::remove_quick(self.buffer.as_mut(), self.numbers, hash);
        self.take(changed).map(|removed| removed == 1)
    }

    /// Takes over the record, which a refusal gives back as it was.
    fn take(&mut self, changed: ffi::Changed) -> Result<u64> {
        self.numbers = changed.numbers;
        Error::unless(changed.number, changed.answer)
    }
}

/// The record without the bytes.
impl<B> fmt::Debug for Filter<B> {
    fn fmt(&self, f: &mut fmt::Formatter) -> fmt::Result {
        f.debug_struct("Filter").field("numbers", &self.numbers).finish_non_exhaustive()
    }
}
