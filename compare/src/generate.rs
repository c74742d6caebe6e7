//! Seeded hashes, holdings and sequences of calls.

use crate::call::{Call, ask_model};
use crate::model::{Filter, Shape};
use crate::seed::Rng;

/// Where the quotients fall.
#[derive(Clone, Copy, Debug)]
pub enum Spread {
    /// Anywhere.
    Uniform,
    /// Four quotients.
    Few,
    /// The last and first slots, so that runs wrap.
    Ends,
    /// One quotient, so that offsets saturate where there are blocks enough.
    One,
    /// One quotient half of the time, else anywhere.
    Heavy,
    /// 80 quotients in a row, across a block's border.
    Window,
}

/// All of them.
pub const SPREADS: [Spread; 6] =
    [Spread::Uniform, Spread::Few, Spread::Ends, Spread::One, Spread::Heavy, Spread::Window];

const MAX_COUNTS: [u64; 8] = [0, 1, 1, 2, 3, u64::MAX, u64::MAX, u64::MAX];

/// Draws hashes of a shape by a spread. Narrow remainders make copies likely.
#[derive(Clone)]
pub struct Hashes {
    shape: Shape,
    spread: Spread,
    home: u64,
    narrow: bool,
}

impl Hashes {
    /// Hashes of one spread.
    pub fn new(rng: &mut Rng, shape: Shape, spread: Spread) -> Hashes {
        Hashes { shape, spread, home: rng.next(), narrow: rng.one_in(2) }
    }

    /// Hashes of any spread.
    pub fn spread(rng: &mut Rng, shape: Shape) -> Hashes {
        let spread = rng.pick(&SPREADS);
        Hashes::new(rng, shape, spread)
    }

    /// The same homes for another shape, so that two filters meet.
    pub fn at(&self, shape: Shape) -> Hashes {
        Hashes { shape, ..self.clone() }
    }

    /// A hash with anything above the width, which must be ignored.
    pub fn hash(&self, rng: &mut Rng) -> u64 {
        let quotient = self.quotient(rng) % self.shape.slots();
        let fingerprint = self.shape.join(quotient, self.remainder(rng));
        fingerprint | rng.next() & !(u64::MAX >> (64 - self.shape.width()))
    }

    fn quotient(&self, rng: &mut Rng) -> u64 {
        let slots = self.shape.slots();
        // Taken from the top, a home is the same fraction of every shape's slots.
        let home = self.home >> (64 - self.shape.qbits);
        match self.spread {
            Spread::Uniform => rng.next(),
            Spread::Few => {
                self.home.rotate_left(16 * rng.below(4) as u32) >> (64 - self.shape.qbits)
            }
            Spread::Ends => slots - 3 + rng.below(5),
            Spread::One => home,
            Spread::Heavy if rng.one_in(2) => home,
            Spread::Heavy => rng.next(),
            Spread::Window => home / 64 * 64 + slots - 10 + rng.below(80),
        }
    }

    fn remainder(&self, rng: &mut Rng) -> u64 {
        let all = (1 << self.shape.rbits) - 1;
        match rng.below(8) {
            0 => 0,
            1 => all,
            _ if self.narrow => rng.below(6) & all,
            _ => rng.next() & all,
        }
    }

    /// A holding of this many, of any family.
    pub fn holding(&self, rng: &mut Rng, max_qbits: u8, len: u64) -> Filter {
        let held = (0..len).map(|_| self.shape.fingerprint(self.hash(rng))).collect();
        Filter::new(self.shape, max_qbits, held).of_family(rng.next())
    }

    /// A hash that is held, half of the time.
    fn near(&self, rng: &mut Rng, filter: &Filter) -> u64 {
        if filter.held.is_empty() || rng.one_in(2) {
            return self.hash(rng);
        }
        rng.pick(&filter.held)
    }

    fn read(&self, rng: &mut Rng, filter: &Filter) -> Call {
        let hash = self.near(rng, filter);
        if rng.one_in(2) { Call::Contains { hash } } else { Call::Count { hash } }
    }

    /// Up to capacity and back to empty, with reads between, `limit` calls at most.
    pub fn up_and_down(&self, rng: &mut Rng, start: &Filter, limit: usize) -> Vec<Call> {
        let mut filter = start.clone();
        let mut calls = Vec::new();
        let mut refused = 0;
        while calls.len() < limit && (refused < 4 || !filter.held.is_empty()) {
            let up = refused < 4;
            let call = match rng.below(12) {
                0..=3 => self.read(rng, &filter),
                4 if up => Call::Remove { hash: self.near(rng, &filter) },
                5 if !up => self.insert(rng),
                _ if up => self.insert(rng),
                _ => Call::Remove { hash: rng.pick(&filter.held) },
            };
            ask_model(&mut filter, &call);
            refused += u64::from(filter.len() >= filter.shape.capacity());
            calls.push(call);
        }
        calls
    }

    /// An insert of a hash of the spread.
    pub fn insert(&self, rng: &mut Rng) -> Call {
        Call::Insert { hash: self.hash(rng), max_count: rng.pick(&MAX_COUNTS) }
    }
}
