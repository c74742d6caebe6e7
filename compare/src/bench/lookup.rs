//! Quick lookup and count.

use super::clock::timed;
use super::inputs::{Asked, Spread, holding, lookups, of_crate, percent, shape};
use super::table::{Table, Work};
use crate::model::Shape;
use crate::original::numbers_of;
use crate::proved::reading::{contains, count};
use std::hint::black_box;

const NUMBER: usize = 1_000_000;
const BATCHES: usize = 16;

#[derive(Clone, Copy, PartialEq)]
enum Call {
    Lookup,
    Count,
}

/// The rows of lookup, then those of count.
pub fn rows(table: &mut Table) {
    use Asked::{Absent, Half, Held};
    use Spread::{Uniform, Windows};
    for call in [Call::Lookup, Call::Count] {
        for (asked, words) in [(Half, "half present"), (Held, "all present"), (Absent, "absent")] {
            row(table, call, shape(13, 8), 7000, (Uniform, asked), words);
        }
        row(table, call, shape(20, 8), percent(shape(20, 8), 90), (Uniform, Half), "half present");
        row(table, call, shape(13, 8), 7000, (Windows(32), Half), "clustered in 32 windows of 64");
        row(table, call, shape(13, 8), 7000, (Windows(8), Half), "offsets saturated, 8 windows");
    }
}

/// The rows by width.
pub fn by_width(table: &mut Table) {
    let asked = (Spread::Uniform, Asked::Half);
    for shape in (10..=22).map(|qbits| shape(qbits, 8)) {
        row(table, Call::Lookup, shape, percent(shape, 90), asked, "half present");
    }
    for shape in super::widths() {
        row(table, Call::Count, shape, percent(shape, 90), asked, "half present");
    }
}

fn row(
    table: &mut Table,
    call: Call,
    shape: Shape,
    len: u64,
    (spread, asked): (Spread, Asked),
    words: &str,
) {
    let what = if call == Call::Lookup { "lookup" } else { "count" };
    let Shape { qbits, rbits } = shape;
    let name = format!("{what} {qbits}/{rbits}, {len} held, {words}");
    if !table.wants(&name) {
        return;
    }
    let mut rng = table.rng(&name);
    let holding = holding(&mut rng, shape, spread, 0, len);
    let hashes = lookups(&mut rng, &holding, spread, asked, NUMBER);
    let filter = of_crate(&holding);
    let (buffer, n) = (filter.buffer(), numbers_of(&filter));
    let batch = |i: usize| &hashes[NUMBER / BATCHES * i..NUMBER / BATCHES * (i + 1)];
    let work = Work { batches: BATCHES, operations: NUMBER as u64 };
    match call {
        Call::Lookup => table.row(
            "lookup",
            &name,
            work,
            |i| timed(|| sum(batch(i), |hash| filter.contains_fingerprint(hash).into())),
            |i| timed(|| sum(batch(i), |hash| held(contains(true, buffer, n, hash)))),
        ),
        Call::Count => table.row(
            "lookup",
            &name,
            work,
            |i| timed(|| sum(batch(i), |hash| filter.count_fingerprint(hash))),
            |i| timed(|| sum(batch(i), |hash| copies(count(true, buffer, n, hash)))),
        ),
    }
}

fn held(answer: Result<(bool, u64), u64>) -> u64 {
    answer.expect("nothing is due").0.into()
}

fn copies(answer: Result<u64, u64>) -> u64 {
    answer.expect("nothing is due")
}

fn sum(hashes: &[u64], ask: impl Fn(u64) -> u64) -> u64 {
    hashes.iter().map(|&hash| ask(black_box(hash))).sum()
}
