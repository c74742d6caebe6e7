//! What the rows of insert and remove share: a batch takes one percent of the slots, up to the
//! load or down from it, on copies that are put back before each batch.

use super::clock::timed;
use super::inputs::{digest, of_crate, percent, shape};
use super::table::{Batch, Table, Work};
use crate::model::{Filter, Numbers, Shape};
use crate::original::numbers_of;
use crate::seed::Rng;
use std::cell::RefCell;

/// A batch is at least so many calls, over several copies of a small filter.
const CALLS: u64 = 2000;

/// The filters that both sides write, in the same memory.
struct Copies {
    start: qfilter::Filter,
    written: Vec<qfilter::Filter>,
}

impl Copies {
    fn new(start: &Filter, number: u64) -> Copies {
        let start = of_crate(start);
        let written = (0..number).map(|_| start.clone()).collect();
        Copies { start, written }
    }

    /// Times one writer over all copies; the digest has its answers and the bytes of one.
    fn batch(&mut self, mut write: impl FnMut(&mut qfilter::Filter) -> u64) -> Batch {
        self.written.iter_mut().for_each(|filter| filter.put_back(&self.start));
        let (time, answers) = timed(|| self.written.iter_mut().map(&mut write).sum::<u64>());
        (time, answers ^ digest(self.written[0].buffer()))
    }
}

/// Insert or remove, as each side does it.
pub trait Writer {
    /// The name in the first column.
    const PART: &'static str;

    /// The holding that a batch starts from, and its hashes.
    fn start(rng: &mut Rng, shape: Shape, load: u64, calls: u64) -> (Filter, Vec<u64>);

    /// Writes one hash and answers.
    fn original(filter: &mut qfilter::Filter, hash: u64) -> u64;

    /// Writes one hash, answers, and keeps the record.
    fn proved(buffer: &mut [u8], n: &mut Numbers, hash: u64) -> u64;
}

/// The rows at two sizes, each at three loads.
pub fn rows<W: Writer>(table: &mut Table) {
    for shape in [shape(13, 8), shape(20, 8)] {
        for load in [50, 90, 95] {
            row::<W>(table, shape, load);
        }
    }
}

/// The rows by width.
pub fn by_width<W: Writer>(table: &mut Table) {
    for shape in super::widths() {
        row::<W>(table, shape, 90);
    }
}

fn row<W: Writer>(table: &mut Table, shape: Shape, load: u64) {
    let Shape { qbits, rbits } = shape;
    let name = format!("{} {qbits}/{rbits} at {load} %", W::PART);
    if !table.wants(&name) {
        return;
    }
    let calls = percent(shape, 1);
    let (filter, hashes) = W::start(&mut table.rng(&name), shape, percent(shape, load), calls);
    let number = CALLS.div_ceil(calls);
    let copies = RefCell::new(Copies::new(&filter, number));
    let work = Work { batches: 4, operations: 4 * number * calls };
    let original =
        |filter: &mut qfilter::Filter| hashes.iter().map(|&hash| W::original(filter, hash)).sum();
    let proved = |filter: &mut qfilter::Filter| {
        let mut n = numbers_of(filter);
        let buffer = filter.buffer_mut();
        hashes.iter().map(|&hash| W::proved(buffer, &mut n, hash)).sum()
    };
    table.row(
        W::PART,
        &name,
        work,
        |_| copies.borrow_mut().batch(original),
        |_| copies.borrow_mut().batch(proved),
    );
}
