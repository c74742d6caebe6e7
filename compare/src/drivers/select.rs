//! Select: the model against the assembly and the portable body. Known departures of the
//! original, all at n of 64 and above, are counted and not held against it.

use super::Effort;
use crate::model::select;
use crate::seed::Rng;

const NAME: &str = "select";

/// One body of select, and where it departs.
struct Body {
    name: &'static str,
    ask: fn(u64, u64) -> Option<u64>,
    /// From this n on it may depart.
    known: u64,
    agree: u64,
    departures: u64,
    first: Option<(u64, u64)>,
}

impl Body {
    fn new(name: &'static str, known: u64, ask: fn(u64, u64) -> Option<u64>) -> Body {
        Body { name, ask, known, agree: 0, departures: 0, first: None }
    }

    fn compare(&mut self, x: u64, n: u64) {
        let (got, expected) = ((self.ask)(x, n), select(x, n));
        if got == expected {
            self.agree += 1;
            return;
        }
        if n < self.known {
            println!(
                "{NAME}: {} DISAGREES\n  select({x:#x}, {n}) is {got:?}, expected {expected:?}",
                self.name
            );
            std::process::exit(1);
        }
        self.departures += 1;
        if self.first.is_none_or(|first| (n, x) < (first.1, first.0)) {
            self.first = Some((x, n));
        }
    }

    fn line(&self) -> String {
        let Some((x, n)) = self.first else {
            return format!("{} {}", self.name, self.agree);
        };
        let got = (self.ask)(x, n);
        let first = format!("first select({x:#x}, {n}) = {got:?}");
        format!("{} {}, and {} known departures, {first}", self.name, self.agree, self.departures)
    }
}

/// Asks every body for every word and rank.
pub fn drive(effort: Effort) {
    let mut rng = Rng::new(effort.seed, NAME);
    // The assembly takes n modulo 64; a build without it asks the portable body twice.
    let mut bodies = [
        Body::new("word", 64, qfilter::Filter::word_select),
        Body::new("portable", 128, qfilter::Filter::portable_select),
        #[cfg(feature = "proved")]
        Body::new("proved", u64::MAX, crate::proved::planning::select),
    ];
    for x in words(&mut rng, 2000 * effort.times) {
        for n in ranks() {
            bodies.iter_mut().for_each(|body| body.compare(x, n));
        }
    }
    let total: u64 = bodies.iter().map(|body| body.agree).sum();
    let lines: Vec<String> = bodies.iter().map(Body::line).collect();
    println!("{NAME}: {total} calls agree ({})", lines.join("; "));
}

/// Single bits, low and high stretches, and random words of every density.
fn words(rng: &mut Rng, random: u64) -> Vec<u64> {
    let mut words = vec![0, 1, 11, u64::MAX, u64::MAX - 1, 0x5555_5555_5555_5555];
    for i in 0..64 {
        words.extend([1 << i, u64::MAX >> i, u64::MAX << i, !(1 << i)]);
    }
    for i in 0..random {
        let word = rng.next();
        words.push(match i % 4 {
            0 => word,
            1 => word & rng.next() & rng.next(),
            2 => word | rng.next() | rng.next(),
            _ => word >> rng.below(64) << rng.below(64),
        });
    }
    words
}

/// All up to 300, and the edges of larger ones.
fn ranks() -> impl Iterator<Item = u64> {
    let edges = (9..64).flat_map(|k| [(1u64 << k) - 1, 1 << k, (1 << k) + 1, (1 << k) + 5]);
    (0..=300).chain(edges).chain([u64::MAX - 1, u64::MAX])
}
