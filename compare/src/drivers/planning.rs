//! Planning: slots, specs and resizeable plans of the model against the original's. The original
//! goes through `log2`, which rounds just under a power of two: those departures are counted.

use super::Effort;
use super::inputs::{capacities, rates};
use crate::model::planning::{
    bits, filter_specs, plan, plan_with, rbits_for, slots_for, specs_with,
};
use crate::model::{Shape, Specs, Widths};
use crate::original::{number_of, numbers_of, widths_of};
#[cfg(feature = "proved")]
use crate::proved::planning as proved;
use crate::seed::Rng;
use std::fmt::Debug;
use std::panic::{catch_unwind, set_hook, take_hook};

const NAME: &str = "planning";

/// Larger buffers than this the original isn't asked to allocate.
const LARGEST_BUFFER: u64 = 1 << 24;

#[derive(Default)]
struct Tally {
    agree: u64,
    departures: u64,
    /// The smallest specs that depart: capacity, rbits by the rules, rate's bits.
    first: Option<(u64, u8, u64)>,
    /// The smallest that the rules refuse.
    first_refused: Option<(u64, u8, u64)>,
    /// The most ulps below a power of two at which the original departs.
    ulps: u64,
    proved: u64,
}

/// Plans for every capacity and every rate.
pub fn drive(effort: Effort) {
    let mut rng = Rng::new(effort.seed, NAME);
    let capacities = capacities(&mut rng, 200 * effort.times);
    let rates = rates(&mut rng, 2000 * effort.times);
    let mut tally = Tally::default();
    for &capacity in &capacities {
        tally.slots(capacity);
        for _ in 0..40 {
            tally.specs(capacity, rng.pick(&rates));
            let other = rng.pick(&capacities);
            tally.plan(capacity.min(other), capacity.max(other), rng.pick(&rates));
        }
        tally.refusal_11(capacity, rng.pick(&capacities), rng.pick(&rates));
    }
    for &rate in &rates {
        for capacity in [0, 1000, rng.pick(&capacities)] {
            tally.specs(capacity, rate);
            tally.plan(capacity.min(500), capacity.max(500), rate);
        }
    }
    tally.finish();
}

impl Tally {
    fn slots(&mut self, capacity: u64) {
        let got = qfilter::Filter::needed_slots(capacity).map_err(number_of);
        self.same(&format!("slots for {capacity}"), got, slots_for(capacity));
        #[cfg(feature = "proved")]
        self.same_proved("slots", proved::slots_for(capacity), slots_for(capacity));
    }

    fn specs(&mut self, capacity: u64, rate: f64) {
        let expected = filter_specs(capacity, rate).map(bits);
        let got = qfilter::filter_specs(capacity, rate).map_err(number_of);
        let got = got.map(|specs| bits(from_original(specs)));
        if got != expected && specs_with(capacity, rbits_for(rate) - 1).map(bits) == got {
            self.departs(rate);
            let first = if expected.is_err() { &mut self.first_refused } else { &mut self.first };
            let this = (capacity, rbits_for(rate), rate.to_bits());
            *first = Some(first.map_or(this, |first| first.min(this)));
        } else {
            self.same(&format!("specs for {capacity} at {:#x}", rate.to_bits()), got, expected);
        }
        #[cfg(feature = "proved")]
        self.same_proved(
            &format!("specs for {capacity} at {:#x}", rate.to_bits()),
            proved::filter_specs(capacity, rate).map(bits),
            expected,
        );
    }

    fn plan(&mut self, initial: u64, max: u64, rate: f64) {
        let what = format!("plan for {initial} to {max} at {:#x}", rate.to_bits());
        let expected = plan(initial, max, rate);
        #[cfg(feature = "proved")]
        self.same_proved(&what, proved::plan(initial, max, rate), expected);
        let rounded = plan_with(initial, max, rbits_for(rate).saturating_sub(1).max(1));
        if [expected, rounded].into_iter().flatten().any(|plan| buffer_len(plan) > LARGEST_BUFFER) {
            return;
        }
        let got =
            qfilter::Filter::new_resizeable(initial, max, rate).map_err(number_of).map(plan_of);
        if got != expected && got == rounded {
            self.departs(rate);
        } else {
            self.same(&what, got, expected);
        }
    }

    /// Where the rules give 11 the original panics.
    fn refusal_11(&mut self, a: u64, b: u64, rate: f64) {
        if a == b {
            return;
        }
        let hook = take_hook();
        set_hook(Box::new(|_| {}));
        let asked =
            catch_unwind(|| qfilter::Filter::new_resizeable(a.max(b), a.min(b), rate).is_ok());
        set_hook(hook);
        let got = if asked.is_err() { Err(11) } else { Ok(Widths::default()) };
        let what = format!("plan for {} to {}", a.max(b), a.min(b));
        self.same(&what, got, plan(a.max(b), a.min(b), rate));
        #[cfg(feature = "proved")]
        self.same_proved(&what, proved::plan(a.max(b), a.min(b), rate), Err(11));
    }

    fn same<T: PartialEq + Debug>(&mut self, what: &str, got: T, expected: T) {
        assert_same("the original", what, got, expected);
        self.agree += 1;
    }

    #[cfg(feature = "proved")]
    fn same_proved<T: PartialEq + Debug>(&mut self, what: &str, got: T, expected: T) {
        assert_same("the proved library", what, got, expected);
        self.proved += 1;
    }

    /// Counts a departure, which is one only just under the power of two that the original took.
    fn departs(&mut self, rate: f64) {
        let rbits = rbits_for(rate);
        let power = 0.5f64.powi(i32::from(rbits) - 1);
        let ulps = power.to_bits() - rate.to_bits();
        assert!(rate < power && ulps < 64, "{rate:e} is no rounding of log2");
        self.departures += 1;
        self.ulps = self.ulps.max(ulps);
    }

    fn finish(&self) {
        let Tally { agree, proved, departures, ulps, .. } = self;
        for (first, then) in [(self.first, ""), (self.first_refused, ", and the rules give 9")] {
            let Some((capacity, rbits, rate)) = first else { continue };
            let taken = rbits - 1;
            println!(
                "  known: capacity {capacity} at {rate:#x}, the original takes {taken}, not {rbits}{then}"
            );
        }
        println!(
            "{NAME}: {} calls agree (original {agree}, proved {proved}), and {departures} known \
             departures of log2, up to {ulps} ulps below a power of two",
            agree + proved
        );
    }
}

fn assert_same<T: PartialEq + Debug>(who: &str, what: &str, got: T, expected: T) {
    if got != expected {
        println!("{NAME}: {who} DISAGREES\n  {what}: {got:x?}, expected {expected:x?}");
        std::process::exit(1);
    }
}

fn buffer_len(plan: Widths) -> u64 {
    Shape { qbits: plan.qbits, rbits: plan.rbits }.buffer_len()
}

/// The plan that the original carried out; its buffer must be a fresh one of that plan.
fn plan_of(filter: qfilter::Filter) -> Widths {
    let plan = widths_of(&filter);
    let len = numbers_of(&filter).len;
    assert!(len == 0 && filter.buffer().len() as u64 == buffer_len(plan));
    plan
}

/// The original's specs as the rules have them.
pub fn from_original(specs: qfilter::FilterSpecs) -> Specs {
    Specs {
        max_capacity: specs.max_capacity,
        max_error_ratio: specs.max_error_ratio,
        bits_per_item: specs.bits_per_item,
        memory_bytes_min: specs.memory_bytes_min as u64,
        memory_bytes_max: specs.memory_bytes_max as u64,
        fingerprint_bits: specs.fingerprint_bits.into(),
    }
}
