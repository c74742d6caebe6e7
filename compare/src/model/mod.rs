//! A straight model of docs/RULES.md and nothing else: slow, small, and with no look at the
//! original or the proved code. A refusal is an `Err` with its number. Only the record and the
//! other plain values are the Rust crate's.

mod check;
mod filter;
mod growth;
mod image;
pub mod planning;
mod program;
mod select;
mod shape;

pub use check::{check, due_before_image};
pub use filter::Filter;
pub use growth::{fresh, insert_spare};
pub use image::carries;
pub use program::program;
pub use select::select;
pub use shape::Shape;
pub use strumblay::{Fresh, Numbers, Place, Specs, Widths};
