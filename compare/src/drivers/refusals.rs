//! Lookup, count, insert, remove, insert with a spare and listing of the proved library, on filters
//! with one or two things wrong, on holdings above capacity, and on damaged buffers: the lowest
//! number is given and nothing changes; a quick call on a damaged buffer ends and stays inside.

use super::Effort;
use super::reads::{above_capacity, some_len};
use crate::call::Call;
use crate::generate::Hashes;
use crate::model::{Filter, Numbers, Place, Shape, due_before_image};
use crate::proved::guarded::Guarded;
use crate::proved::raw::{Seen, compare};
use crate::proved::reading::list_step;
use crate::proved::subject::Proved;
use crate::seed::Rng;
use crate::smallest::hex;
use crate::subject::Subject;
use crate::{damage, wrong};

const NAME: &str = "refusals";

struct Tally {
    subjects: [Proved; 2],
    agreed: u64,
    ended: u64,
}

/// Asks every call on every wrong form of seeded filters.
pub fn drive(effort: Effort) {
    let mut rng = Rng::new(effort.seed, NAME);
    let mut tally = Tally { subjects: [Proved::checked(), Proved::quick()], agreed: 0, ended: 0 };
    for (qbits, rbits) in [(6, 1), (6, 8), (6, 58), (7, 8), (8, 3), (9, 8)] {
        let shape = Shape { qbits, rbits };
        for round in 0..4 * effort.times {
            let hashes = Hashes::spread(&mut rng, shape);
            let len = some_len(&mut rng, shape);
            let max_qbits = if rbits > 1 && rng.one_in(2) { qbits + 1 } else { 0 };
            let filter = hashes.holding(&mut rng, max_qbits, len);
            wrong::each(&mut rng, &filter, &mut |rng, n, bytes| {
                tally.all(rng, &hashes, &filter, n, bytes)
            });
            let full = above_capacity(&mut rng, shape, &hashes);
            tally.all(&mut rng, &hashes, &full, full.numbers(), &full.image());
            let flips = qbits < 8 && round < 2 * effort.times;
            let mut draw = rng.clone();
            damage::each(&mut rng, &filter, flips, &mut |n, bytes| {
                tally.all(&mut draw, &hashes, &filter, n, bytes)
            });
        }
    }
    let Tally { agreed, ended, .. } = tally;
    println!("{NAME}: {agreed} calls agree, {ended} quick ones on damaged buffers end inside");
}

impl Tally {
    /// Every call once, with a hash that may be held.
    fn all(&mut self, rng: &mut Rng, hashes: &Hashes, filter: &Filter, n: Numbers, bytes: &[u8]) {
        let held = !filter.held.is_empty() && rng.one_in(2);
        let hash = if held { rng.pick(&filter.held) } else { hashes.hash(rng) };
        let max_count = rng.pick(&[0, 1, 2, u64::MAX]);
        let calls = [
            Call::Contains { hash },
            Call::Count { hash },
            Call::Insert { hash, max_count },
            Call::Remove { hash },
            Call::InsertSpare { hash, max_count },
            Call::List,
        ];
        for call in calls {
            self.one(n, bytes, &call);
        }
        self.step(rng, n, bytes);
    }

    fn one(&mut self, n: Numbers, bytes: &[u8], call: &Call) {
        for subject in &mut self.subjects {
            match compare(subject, n, bytes, call) {
                Ok(Seen::NotOffered) => {}
                Ok(Seen::Agreed) => self.agreed += 1,
                Ok(Seen::Ended) => self.ended += 1,
                Err(differs) => {
                    disagree(subject.name(), &format!("{call:x?}: {differs}"), n, bytes)
                }
            }
        }
    }

    /// A step from a place that may be made up: 1 to 5 are fixed, and that it ends.
    fn step(&mut self, rng: &mut Rng, n: Numbers, bytes: &[u8]) {
        let any = |rng: &mut Rng| rng.next() >> rng.pick(&[0, 32, 55, 58, 60]);
        let place = Place { quotient: any(rng), slot: any(rng), remaining: any(rng) };
        let lent = Guarded::new(bytes);
        let got = list_step(lent.bytes(), n, place);
        match due_before_image(n, bytes.len() as u64) {
            Ok(_) => self.ended += 1,
            Err(number) if got == Err(number) => self.agreed += 1,
            Err(number) => {
                disagree("proved", &format!("step: {got:?}, expected {number}"), n, bytes)
            }
        }
    }
}

fn disagree(name: &str, what: &str, n: Numbers, bytes: &[u8]) -> ! {
    println!(
        "{NAME}: {name} DISAGREES\n  on {n:?}, {} bytes {}\n  {what}",
        bytes.len(),
        hex(bytes)
    );
    std::process::exit(1)
}
