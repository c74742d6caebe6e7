//! The library's exports, and a safe function over each that lends it a slice. Nothing outside
//! this module is unsafe. It is public for the comparison with the original, and no part of what
//! this crate offers.
//!
//! SAFETY of every call below it: the slices are valid for their whole lengths and lent for the
//! call only, one that is written overlaps no other by Rust's own rules, and the library keeps
//! inside them whatever they and the numbers hold.

use crate::Numbers;
use core::mem::{offset_of, size_of};

mod answers;
mod changing;
mod growing;
mod planning;
mod reading;

pub use answers::*;
pub use changing::*;
pub use growing::*;
pub use planning::*;
pub use reading::*;

// As C has it: the sizes in sixteen bytes, and the family behind them.
const _: () = assert!(size_of::<Numbers>() == 24 && offset_of!(Numbers, family) == 16);
