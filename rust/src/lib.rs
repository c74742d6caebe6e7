//! The retired list: a quotient filter in a buffer of your own, whose every call is proved.
//!
//! A filter holds fingerprints, the low bits of 64-bit hashes, each so many times, and answers
//! whether a hash has one that is held. It may say yes to another hash whose low bits are the same;
//! it never says no to one whose fingerprint it holds.
//!
//! ```
//! use strumblay::{Error, Filter, Widths};
//!
//! // For 1,000 fingerprints of a hash that we call 1, with a false yes in a hundred at the most.
//! let mut filter = Filter::new(Widths::planned(1000, 1000, 0.01)?.family(1))?;
//! let (replaced, arriving) = (0x51_46ab, 0x9c_0e12);
//! assert_eq!(filter.insert(replaced, 1)?, 0);
//! assert!(filter.contains(replaced)?);
//! assert!(!filter.contains(arriving)?);
//!
//! // Save the two parts; the buffer that comes back is checked before it is believed.
//! let (mut buffer, numbers) = filter.into_parts();
//! assert!(Filter::from_parts(&buffer[..], numbers).check().is_ok());
//! buffer[0] = 9;
//! let damaged = Filter::from_parts(&buffer[..], numbers);
//! assert_eq!(damaged.contains(replaced), Err(Error::NOT_SOUND));
//! # Ok::<(), Error>(())
//! ```
//!
//! # Checked and quick
//! A call checks the whole filter, [`Error`] numbers 1 to 6, and then works. A call that ends in
//! `_quick` asks 1 to 5, without reading the buffer, and then trusts it: after one [`Filter::check`]
//! it gives the same answers. On a buffer that is not sound it ends and touches nothing else, but
//! its answer, 6 included, and what it writes in the buffer's blocks may be anything; of its record
//! only len is open, and it is at most capacity. A quick insert with `max_count` 0 answers 0 and
//! changes nothing there too. No call panics, though one that makes a buffer of its own needs the
//! memory. A refused call has changed nothing; only a quick remove on a buffer that is not sound may
//! have altered blocks.
//!
//! # Buffers
//! [`Filter<B>`](Filter) works over a `Vec<u8>` of its own, over `&mut [u8]`, and for reading over
//! `&[u8]`. Beside the buffer it has a record of [`Numbers`]. Equal widths and equal contents mean
//! equal bytes, in whatever order they were inserted.
//!
//! # Families
//! A filter cannot tell which hash its fingerprints come from, so its record says: a number of
//! yours, which [`Widths::family`] gives to a fresh filter and every call carries on. Filters of two
//! families are not merged, [`Error::TWO_FAMILIES`]; no other call asks.
#![no_std]

extern crate alloc;

mod record;

#[cfg(feature = "library")]
mod error;
#[cfg(feature = "library")]
#[allow(unsafe_code)]
#[doc(hidden)]
pub mod ffi;
#[cfg(feature = "library")]
mod filter;
#[cfg(feature = "library")]
mod growth;
#[cfg(feature = "library")]
mod listing;
#[cfg(feature = "library")]
mod planning;

pub use record::{Fresh, Numbers, Place, Specs, Widths};

#[cfg(feature = "library")]
pub use {
    error::{Error, Result},
    filter::{Filter, Lookup},
    listing::Fingerprints,
    planning::{filter_specs, select, slots_for},
};
