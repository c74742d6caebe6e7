//! The check for each slot, beside the crate's full listing of the same filter.

use super::clock::timed;
use super::inputs::{Spread, holding, of_crate, percent, shape};
use super::table::{Table, Work};
use crate::model::Shape;
use crate::original::numbers_of;
use std::hint::black_box;
use strumblay::ffi::check;

/// The rows at two sizes.
pub fn rows(table: &mut Table) {
    row(table, shape(13, 8), 7000);
    row(table, shape(20, 8), percent(shape(20, 8), 90));
}

/// The rows by width.
pub fn by_width(table: &mut Table) {
    for shape in super::widths() {
        row(table, shape, percent(shape, 90));
    }
}

fn row(table: &mut Table, shape: Shape, len: u64) {
    let Shape { qbits, rbits } = shape;
    let name = format!("check {qbits}/{rbits}, {len} held, a slot, to the crate's listing");
    if !table.wants(&name) {
        return;
    }
    let mut rng = table.rng(&name);
    let filter = of_crate(&holding(&mut rng, shape, Spread::Uniform, 0, len));
    let n = numbers_of(&filter);
    let work = Work { batches: 4, operations: 4 * shape.slots() };
    table.row(
        "check",
        &name,
        work,
        |_| {
            let (time, _) = timed(|| black_box(filter.fingerprints().fold(0, u64::wrapping_add)));
            (time, 0)
        },
        |_| timed(|| check(filter.buffer(), n)),
    );
}
