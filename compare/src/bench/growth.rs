//! Growth of a full filter, and merge of two filters of equal widths. The crate allocates its
//! result, the proved calls check what they read first.

use super::clock::timed;
use super::inputs::{Spread, digest, holding, of_crate, percent, shape};
use super::table::{Table, Work};
use crate::model::Shape;
use crate::original::numbers_of;
use crate::proved::writing;

/// The rows of growth, then those of merge.
pub fn rows(table: &mut Table) {
    let shapes = [shape(13, 8), shape(18, 10)];
    for shape in shapes {
        grow(table, shape);
    }
    for shape in shapes {
        merge(table, shape, true);
        merge(table, shape, false);
    }
}

/// The rows by width.
pub fn by_width(table: &mut Table) {
    for shape in super::widths() {
        grow(table, shape);
    }
    for shape in super::widths() {
        merge(table, shape, true);
    }
}

fn grow(table: &mut Table, shape: Shape) {
    let Shape { qbits, rbits } = shape;
    let name = format!("growth {qbits}/{rbits} at capacity, a fingerprint");
    if !table.wants(&name) {
        return;
    }
    let mut rng = table.rng(&name);
    let full = holding(&mut rng, shape, Spread::Uniform, qbits + 1, shape.capacity());
    let filter = of_crate(&full);
    let (buffer, n) = (filter.buffer(), numbers_of(&filter));
    let grown = Shape { qbits: qbits + 1, rbits: rbits - 1 };
    let mut dest = vec![0xa5; grown.buffer_len() as usize];
    let work = Work { batches: 4, operations: 4 * full.len() };
    table.row(
        "growth",
        &name,
        work,
        |_| {
            let (time, grown) = timed(|| filter.grown().expect("it may grow"));
            (time, digest(grown.buffer()))
        },
        |_| {
            let (time, grown) = timed(|| writing::grow(buffer, n, &mut dest));
            grown.expect("it may grow");
            (time, digest(&dest))
        },
    );
}

fn merge(table: &mut Table, shape: Shape, keep: bool) {
    let Shape { qbits, rbits } = shape;
    let words = if keep { "with duplicates" } else { "without duplicates" };
    let name = format!("merge {qbits}/{rbits}, 45 % and 45 %, {words}, a fingerprint");
    if !table.wants(&name) {
        return;
    }
    let mut rng = table.rng(&name);
    let len = percent(shape, 45);
    let mut one = || of_crate(&holding(&mut rng, shape, Spread::Uniform, 0, len));
    let (mine, theirs) = (one(), one());
    let lent = (mine.buffer(), numbers_of(&mine));
    let other = (theirs.buffer(), numbers_of(&theirs));
    let mut dest = vec![0xa5; shape.buffer_len() as usize];
    let work = Work { batches: 4, operations: 4 * 2 * len };
    table.row(
        "growth",
        &name,
        work,
        |_| {
            let mut merged = mine.clone();
            let (time, done) = timed(|| merged.merge(keep, &theirs));
            done.expect("there is room");
            (time, digest(merged.buffer()))
        },
        |_| {
            let (time, done) = timed(|| writing::merge(lent, other, keep, &mut dest));
            done.expect("there is room");
            (time, digest(&dest))
        },
    );
}
