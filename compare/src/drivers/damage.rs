//! The proved check against the model's, on sound buffers and damaged ones.

use super::Effort;
use super::reads::some_len;
use crate::damage::each;
use crate::generate::Hashes;
use crate::model::{Filter, Numbers, Shape, check};
use crate::proved::guarded::Guarded;
use crate::seed::Rng;
use crate::smallest::{describe, hex};
use strumblay::ffi;

const NAME: &str = "damage";

/// Shapes, how many filters of each, and how many of those have every bit flipped.
const ROUNDS: [(u8, u8, u64, u64); 8] = [
    (6, 1, 60, 60),
    (6, 8, 80, 80),
    (6, 58, 20, 6),
    (7, 8, 60, 40),
    (8, 3, 40, 16),
    (9, 8, 60, 4),
    (9, 1, 60, 4),
    (10, 5, 20, 1),
];

#[derive(Default)]
struct Tally {
    sound: u64,
    refused: u64,
}

/// Checks every damaged form of seeded filters.
pub fn drive(effort: Effort) {
    let mut rng = Rng::new(effort.seed, NAME);
    let mut tally = Tally::default();
    for (qbits, rbits, filters, flipped) in ROUNDS {
        let shape = Shape { qbits, rbits };
        for round in 0..filters * effort.times {
            let hashes = Hashes::spread(&mut rng, shape);
            let len = some_len(&mut rng, shape);
            let filter = hashes.holding(&mut rng, 0, len);
            let flips = round < flipped * effort.times;
            each(&mut rng, &filter, flips, &mut |numbers, bytes| {
                tally.compare(&filter, numbers, bytes)
            });
        }
    }
    let Tally { sound, refused } = tally;
    println!("{NAME}: {} calls agree (sound {sound}, refused {refused})", sound + refused);
}

impl Tally {
    fn compare(&mut self, filter: &Filter, numbers: Numbers, bytes: &[u8]) {
        let expected = check(numbers, bytes).err().unwrap_or(0);
        let lent = Guarded::new(bytes);
        let got = ffi::check(lent.bytes(), numbers);
        if got != expected {
            println!("{NAME}: the proved check DISAGREES\n  answer {got}, expected {expected}");
            println!("  numbers {numbers:?}");
            println!("  made of {}\n  bytes {}", describe(filter), hex(bytes));
            std::process::exit(1);
        }
        if got == 0 { self.sound += 1 } else { self.refused += 1 }
    }
}
