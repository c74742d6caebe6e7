//! Refusals.

use core::fmt;

/// A value, or why the call was refused.
pub type Result<T> = core::result::Result<T, Error>;

/// Why a call was refused, by the number that the library gives. A refused call has changed
/// nothing, but for a quick remove on a buffer that is not sound, which may have altered blocks.
///
/// ```
/// use strumblay::{Error, Filter, Numbers};
///
/// let numbers = Numbers { len: 0, qbits: 5, rbits: 8, max_qbits: 0, family: 1 };
/// let refused = Filter::from_parts([], numbers).check().unwrap_err();
/// assert_eq!(refused, Error::WIDTHS);
/// assert_eq!(refused.number(), 1);
/// assert_eq!(
///     refused.to_string(),
///     "refused 1: qbits outside 6 to 59, rbits 0, or their sum above 64"
/// );
/// ```
#[derive(Clone, Copy, PartialEq, Eq, Hash)]
pub struct Error(u8);

impl Error {
    /// 1: qbits outside 6 to 59, rbits 0, or their sum above 64.
    pub const WIDTHS: Error = Error(1);
    /// 2: the buffer's length is not that of the widths.
    pub const BUFFER_LENGTH: Error = Error(2);
    /// 3: len above the slots.
    pub const TOO_MANY: Error = Error(3);
    /// 4: max_qbits below qbits, above 59, or above qbits + rbits - 1.
    pub const MAX_QBITS: Error = Error(4);
    /// 5: len above capacity. The capacity is 19/20 of the slots, rounded up; no call that writes
    /// makes a fuller filter.
    pub const TOO_FULL: Error = Error(5);
    /// 6: the buffer is not sound.
    pub const NOT_SOUND: Error = Error(6);
    /// 7: no room.
    pub const NO_ROOM: Error = Error(7);
    /// 8: the other filter's fingerprints are narrower.
    pub const NARROWER: Error = Error(8);
    /// 9: planned widths above 64 bits.
    pub const TOO_WIDE: Error = Error(9);
    /// 10: planned capacity above 547637714688252314.
    pub const CAPACITY_TOO_LARGE: Error = Error(10);
    /// 11: planned maximum below the initial capacity.
    pub const MAXIMUM_BELOW_INITIAL: Error = Error(11);
    /// 12: the destination has the wrong length.
    pub const DESTINATION_LENGTH: Error = Error(12);
    /// 19: the two filters are of two families.
    pub const TWO_FAMILIES: Error = Error(19);

    /// The number, from 1.
    pub const fn number(self) -> u8 {
        self.0
    }

    /// The number in words.
    pub const fn words(self) -> &'static str {
        match self.0 {
            1 => "qbits outside 6 to 59, rbits 0, or their sum above 64",
            2 => "the buffer's length is not that of the widths",
            3 => "len above the slots",
            4 => "max_qbits below qbits, above 59, or above qbits + rbits - 1",
            5 => "len above capacity",
            6 => "the buffer is not sound",
            7 => "no room",
            8 => "the other filter's fingerprints are narrower",
            9 => "planned widths above 64 bits",
            10 => "planned capacity above 547637714688252314",
            11 => "planned maximum below the initial capacity",
            12 => "the destination has the wrong length",
            19 => "the two filters are of two families",
            _ => "a number that this crate has no words for",
        }
    }

    /// The value, if the library's number is 0.
    pub(crate) fn unless<T>(number: u64, value: T) -> Result<T> {
        if number == 0 { Ok(value) } else { Err(Error(number as u8)) }
    }
}

impl fmt::Display for Error {
    fn fmt(&self, f: &mut fmt::Formatter) -> fmt::Result {
        write!(f, "refused {}: {}", self.0, self.words())
    }
}

impl fmt::Debug for Error {
    fn fmt(&self, f: &mut fmt::Formatter) -> fmt::Result {
        write!(f, "Error({}, {:?})", self.0, self.words())
    }
}

impl core::error::Error for Error {}
