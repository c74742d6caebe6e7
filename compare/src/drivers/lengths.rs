//! The proved library's buffer lengths for every pair of widths, and its fresh filters.

use super::Effort;
use crate::model::{Fresh, Shape, Widths, fresh};
use crate::proved::guarded::Guarded;
use crate::proved::{planning, writing};
use crate::seed::Rng;
use crate::smallest::hex;
use std::fmt::Debug;

const NAME: &str = "lengths";

/// Longer destinations than this aren't made; a shorter one then stands for a wrong length.
const LARGEST: u64 = 20_000;

/// Asks every length, and makes fresh filters.
pub fn drive(effort: Effort) {
    let mut calls = 0;
    for qbits in 0..=255 {
        for rbits in 0..=255 {
            let expected = Shape::new(qbits, rbits).map(Shape::buffer_len);
            let widths = Widths { qbits, rbits, max_qbits: 0 };
            same("buffer length", widths.family(0), planning::buffer_len(qbits, rbits), expected);
            calls += 1;
        }
    }
    let mut rng = Rng::new(effort.seed, NAME);
    for qbits in [0, 1, 5, 6, 7, 8, 9, 10, 11, 58, 59, 60, 63, 64, 255] {
        for rbits in [0, 1, 2, 5, 8, 50, 53, 55, 57, 58, 59, 64, 250, 255] {
            for _ in 0..60 * effort.times {
                let max_qbits = if rng.one_in(3) { 0 } else { rng.below(70) as u8 };
                let family = rng.next();
                one(&mut rng, Widths { qbits, rbits, max_qbits }.family(family));
                calls += 1;
            }
        }
    }
    println!("{NAME}: {calls} calls agree");
}

/// A fresh filter in a destination that has the right length or nearly so.
fn one(rng: &mut Rng, asked: Fresh) {
    let right = Shape::new(asked.widths.qbits, asked.widths.rbits)
        .map_or(89, Shape::buffer_len)
        .min(LARGEST);
    let len = (right + rng.pick(&[0, 0, 0, 0, 1, 2, 9]))
        .saturating_sub(rng.pick(&[0, 0, 0, 0, 1, 8, LARGEST]));
    let mut dest = Guarded::garbage(len);
    let expected = fresh(asked, len).map(|numbers| (0, numbers));
    let got = writing::fresh(asked, dest.bytes_mut());
    same("fresh", asked, got, expected);
    let bytes =
        if got.is_ok() { vec![0; len as usize] } else { Guarded::garbage(len).bytes().to_vec() };
    same("fresh bytes", asked, hex(dest.bytes()), hex(&bytes));
    same("marks", asked, dest.intact(), true);
}

fn same<T: PartialEq + Debug>(what: &str, asked: Fresh, got: T, expected: T) {
    if got != expected {
        println!("{NAME}: {what} DISAGREES\n  {asked:?}: {got:?}, expected {expected:?}");
        std::process::exit(1);
    }
}
