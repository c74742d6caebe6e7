//! Growth, merge, and insert with a spare.

use crate::{Error, Filter, Result, Widths, ffi};
use alloc::vec;
use alloc::vec::Vec;
use core::mem;

impl<B: AsRef<[u8]>> Filter<B> {
    /// The same holding with one bit of quotient more, written to `dest`.
    ///
    /// Checked: 1 to 6, then 7 where it may not grow, then 12 for the length of `dest`.
    pub fn grow_into<D: AsMut<[u8]>>(&self, mut dest: D) -> Result<Filter<D>> {
        let got = ffi::grow(self.buffer(), self.numbers, dest.as_mut());
        Error::unless(got.number, Filter { buffer: dest, numbers: got.numbers })
    }

    /// Both holdings, written to `dest`; the result keeps this one's qbits + rbits and max_qbits, and
    /// the family, which must be the same.
    ///
    /// Fingerprints of equal width: with duplicates, copies add up; without, each is held once, so
    /// this one's own repeats go too. qbits may grow, to the smallest with room, up to max_qbits.
    /// The other's wider: they are cut to this one's width; with duplicates all are added, without
    /// only absent ones, once each, and this one's repeats stay. qbits stays. Checked: this one's 1
    /// to 6, the other's, then 19, 8, 7 where there is no room, and 12 for the length of `dest`.
    pub fn merge_into<C: AsRef<[u8]>, D: AsMut<[u8]>>(
        &self,
        other: &Filter<C>,
        keep_duplicates: bool,
        mut dest: D,
    ) -> Result<Filter<D>> {
        let (mine, theirs) = ((self.buffer(), self.numbers), (other.buffer(), other.numbers));
        let got = ffi::merge(mine, theirs, keep_duplicates, dest.as_mut());
        Error::unless(got.number, Filter { buffer: dest, numbers: got.numbers })
    }

    /// The same holding with one bit of quotient more, in a buffer of its own.
    ///
    /// ```
    /// # use strumblay::{Error, Filter, Widths};
    /// let mut filter = Filter::new(Widths { qbits: 6, rbits: 8, max_qbits: 7 }.family(1))?;
    /// filter.insert(0x0103, 1)?;
    /// let grown = filter.grown()?;
    /// assert!(grown.contains(0x0103)?);
    /// assert_eq!((grown.numbers().qbits, grown.numbers().rbits), (7, 7));
    /// assert_eq!(grown.grown(), Err(Error::NO_ROOM));
    /// # Ok::<(), Error>(())
    /// ```
    pub fn grown(&self) -> Result<Filter<Vec<u8>>> {
        self.grow_into(vec![0; self.len_at(1)])
    }

    /// As [`merge_into`](Self::merge_into), in a buffer of its own, whose length is found by
    /// asking.
    ///
    /// ```
    /// # use strumblay::{Error, Filter, Widths};
    /// let widths = Widths::new(6, 8);
    /// let (mut home, mut away) = (Filter::new(widths.family(1))?, Filter::new(widths.family(1))?);
    /// home.insert(0x0103, 1)?;
    /// away.insert(0x0103, 1)?;
    /// away.insert(0x0203, 1)?;
    /// assert!(home.merged(&away, true)?.fingerprints()?.eq([0x0103, 0x0103, 0x0203]));
    /// assert!(home.merged(&away, false)?.fingerprints()?.eq([0x0103, 0x0203]));
    /// // Of another hash.
    /// let strange = Filter::new(widths.family(2))?;
    /// assert_eq!(home.merged(&strange, true), Err(Error::TWO_FAMILIES));
    /// # Ok::<(), Error>(())
    /// ```
    pub fn merged<C: AsRef<[u8]>>(
        &self,
        other: &Filter<C>,
        keep_duplicates: bool,
    ) -> Result<Filter<Vec<u8>>> {
        let mut more = 0;
        loop {
            let merged = self.merge_into(other, keep_duplicates, vec![0; self.len_at(more)]);
            // Past the widths there is no length left to try.
            if merged != Err(Error::DESTINATION_LENGTH) || self.len_at(more) == 0 {
                return merged;
            }
            more += 1;
        }
    }

    /// The bytes with so many bits of quotient more, or 0 if there are no such widths.
    fn len_at(&self, more: u8) -> usize {
        let (qbits, rbits) = (self.numbers.qbits, self.numbers.rbits);
        let widths = Widths::new(qbits.saturating_add(more), rbits.saturating_sub(more));
        widths.buffer_len().unwrap_or(0)
    }
}

impl<B: AsMut<[u8]>> Filter<B> {
    /// As [`insert`](Self::insert); where that refuses 7 the filter grows into `spare`, if it may,
    /// and the two buffers change places: the filter keeps the one that holds it. Checked: 1 to 6,
    /// then 7, then 12 for the length of `spare`, which is asked only where it is needed: never with
    /// `max_count` 0.
    ///
    /// ```
    /// # use strumblay::{Error, Filter, Widths};
    /// let widths = Widths { qbits: 6, rbits: 8, max_qbits: 7 };
    /// let (mut old, mut new) = ([0; 89], [0; 154]);
    /// let mut spare = &mut new[..];
    /// let mut filter = Filter::fresh(&mut old[..], widths.family(1))?;
    /// for hash in 0..62 {
    ///     filter.insert_spare(hash, 1, &mut spare)?;
    /// }
    /// assert_eq!((filter.len(), filter.numbers().qbits), (62, 7));
    /// assert_eq!((filter.buffer().len(), spare.len()), (154, 89));
    /// # Ok::<(), Error>(())
    /// ```
    pub fn insert_spare(&mut self, hash: u64, max_count: u64, spare: &mut B) -> Result<u64> {
        let (old, new) = (self.buffer.as_mut(), spare.as_mut());
        let got = ffi::insert_spare(old, self.numbers, hash, max_count, new);
        self.take_spare(got, spare)
    }

    /// As [`insert_spare`](Self::insert_spare), quick: 1 to 5, 7, 12. On a buffer that is not sound
    /// the spare stays as it was. Neither a refusal nor an insert with `max_count` 0 has changed
    /// either buffer.
    pub fn insert_spare_quick(&mut self, hash: u64, max_count: u64, spare: &mut B) -> Result<u64> {
        let (old, new) = (self.buffer.as_mut(), spare.as_mut());
        let got = ffi::insert_spare_quick(old, self.numbers, hash, max_count, new);
        self.take_spare(got, spare)
    }

    /// Takes over the buffer that counts, and its record.
    fn take_spare(&mut self, got: ffi::SpareAnswer, spare: &mut B) -> Result<u64> {
        if got.in_spare == 1 {
            mem::swap(&mut self.buffer, spare);
        }
        self.numbers = got.numbers;
        Error::unless(got.number, got.answer)
    }
}

impl Filter<Vec<u8>> {
    /// As [`insert`](Self::insert), and grows into a new buffer where it must and may.
    ///
    /// ```
    /// # use strumblay::{Error, Filter, Widths};
    /// let mut filter = Filter::new(Widths::planned(10, 1000, 0.01)?.family(1))?;
    /// for hash in 0..1000 {
    ///     filter.insert_growing(hash, 1)?;
    /// }
    /// assert_eq!((filter.len(), filter.numbers().qbits), (1000, 11));
    /// # Ok::<(), Error>(())
    /// ```
    pub fn insert_growing(&mut self, hash: u64, max_count: u64) -> Result<u64> {
        match self.insert(hash, max_count) {
            Err(Error::NO_ROOM) => {
                let mut spare = vec![0; self.len_at(1)];
                self.insert_spare(hash, max_count, &mut spare)
            }
            answer => answer,
        }
    }
}
