//! A full listing, with and without the checked beginning.

use super::clock::timed;
use super::inputs::{Spread, holding, of_crate, percent, shape};
use super::table::{Table, Work};
use crate::model::{Numbers, Place, Shape};
use crate::original::numbers_of;
use crate::proved::reading::{list_begin, list_step};

/// The rows at two sizes.
pub fn rows(table: &mut Table) {
    for shape in [shape(13, 8), shape(20, 8)] {
        row(table, shape, false);
        row(table, shape, true);
    }
}

/// The rows by width.
pub fn by_width(table: &mut Table) {
    for shape in super::widths() {
        row(table, shape, false);
    }
}

fn row(table: &mut Table, shape: Shape, begins: bool) {
    let Shape { qbits, rbits } = shape;
    let words = if begins { "the checked beginning and all steps" } else { "all steps" };
    let name = format!("list {qbits}/{rbits} at 90 %, {words}");
    if !table.wants(&name) {
        return;
    }
    let mut rng = table.rng(&name);
    let len = percent(shape, 90);
    let filter = of_crate(&holding(&mut rng, shape, Spread::Uniform, 0, len));
    let (buffer, n) = (filter.buffer(), numbers_of(&filter));
    let first = list_begin(buffer, n).expect("it is sound");
    let work = Work { batches: 4, operations: 4 * len };
    table.row(
        "list",
        &name,
        work,
        |_| timed(|| filter.fingerprints().fold(0, u64::wrapping_add)),
        |_| {
            timed(|| {
                let first =
                    if begins { list_begin(buffer, n).expect("it is sound") } else { first };
                steps(buffer, n, first)
            })
        },
    );
}

fn steps(buffer: &[u8], n: Numbers, mut place: Place) -> u64 {
    let mut sum = 0u64;
    while let (Some(fingerprint), next) = list_step(buffer, n, place).expect("nothing is due") {
        sum = sum.wrapping_add(fingerprint);
        place = next;
    }
    sum
}
