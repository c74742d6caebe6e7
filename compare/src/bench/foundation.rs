//! Select, against the crate's `BitExt::select` as this build has it.

use super::clock::timed;
use super::table::{Table, Work};
use crate::proved::planning::select;
use std::hint::black_box;

const NUMBER: u64 = 100_000;

/// The one row.
pub fn rows(table: &mut Table) {
    let name = "select, random words";
    if !table.wants(name) {
        return;
    }
    let mut rng = table.rng(name);
    let asked: Vec<(u64, u64)> = (0..NUMBER).map(|_| (rng.next(), rng.below(40))).collect();
    let work = Work { batches: 1, operations: NUMBER };
    table.row(
        "foundation",
        name,
        work,
        |_| timed(|| sum(&asked, qfilter::Filter::word_select)),
        |_| timed(|| sum(&asked, select)),
    );
}

fn sum(asked: &[(u64, u64)], select: impl Fn(u64, u64) -> Option<u64>) -> u64 {
    asked.iter().map(|&(x, n)| select(black_box(x), n).unwrap_or(64)).sum()
}
