//! Select and planning: the original's answers, which the model's must equal.

use crate::drivers::planning::from_original;
use crate::model::{self, Specs, planning};
use crate::original::{number_of, widths_of};

/// Where the n-th one is, by both.
pub fn select(word: u64, n: u64) -> String {
    let found = model::select(word, n);
    // From 64 on the original departs from its own comment.
    assert!(n >= 64 || qfilter::Filter::word_select(word, n) == found);
    found.map_or("nothing".into(), |place| format!("at {place}"))
}

/// The original's slots, by their qbits.
pub fn slots(capacity: u64) -> Result<String, u64> {
    let slots = qfilter::Filter::needed_slots(capacity).map_err(number_of)?;
    Ok(format!("qbits {}", slots.ilog2()))
}

/// The original's specs; the model's must be the same.
pub fn specs(capacity: u64, rate: f64) -> Result<String, u64> {
    let got = qfilter::filter_specs(capacity, rate).map_err(number_of);
    let right = planning::filter_specs(capacity, rate);
    let shown = |s: Specs| {
        format!(
            "specs {} {} {} {} {:016x} {:016x}",
            s.max_capacity,
            s.fingerprint_bits,
            s.memory_bytes_min,
            s.memory_bytes_max,
            s.max_error_ratio.to_bits(),
            s.bits_per_item.to_bits()
        )
    };
    let got = got.map(from_original).map(shown);
    assert_eq!(got, right.map(shown), "a rate where log2 rounds");
    got
}

/// The original's plan, unless it asserts or its buffer is too large to make.
pub fn plan(initial: u64, max: u64, rate: f64) -> Result<String, u64> {
    let right = planning::plan(initial, max, rate);
    if max >= initial && right.map_or(true, |plan| plan.qbits < 20) {
        let filter = qfilter::Filter::new_resizeable(initial, max, rate).map_err(number_of);
        let got = filter.map(|filter| widths_of(&filter));
        assert_eq!(got, right, "a rate where log2 rounds");
    }
    right.map(|plan| format!("widths {} {} {}", plan.qbits, plan.rbits, plan.max_qbits))
}
