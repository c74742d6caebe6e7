//! The order of refusals where a second filter or a destination is lent: self's 1 to 6, the
//! other's, then 19, 8, 7, 12.

use super::Effort;
use super::merges::some_family;
use super::reads::some_len;
use crate::generate::Hashes;
use crate::model::{Filter, Numbers, Shape, check, insert_spare};
use crate::proved::guarded::Guarded;
use crate::proved::writing;
use crate::seed::Rng;
use crate::smallest::hex;
use crate::wrong;
use std::fmt::{Display, Formatter};

const NAME: &str = "destinations";

/// A filter that may be wrong, as it is lent.
struct Lent {
    numbers: Numbers,
    bytes: Vec<u8>,
}

impl Display for Lent {
    fn fmt(&self, f: &mut Formatter) -> std::fmt::Result {
        write!(f, "{:?}, bytes {}", self.numbers, hex(&self.bytes))
    }
}

/// Merges, grows and inserts with a spare where one or two things may be wrong.
pub fn drive(effort: Effort) {
    let mut rng = Rng::new(effort.seed, NAME);
    let mut calls = 0;
    for (qbits, rbits) in [(6, 2), (6, 8), (7, 7), (7, 8), (8, 6), (9, 8)] {
        for _ in 0..1500 * effort.times {
            let mine = some(&mut rng, Shape { qbits, rbits });
            let widths = rng.pick(&[(6, 8), (7, 7), (7, 9), (6, 2)]);
            let mut theirs = some(&mut rng, Shape { qbits: widths.0, rbits: widths.1 });
            theirs.numbers.family = some_family(&mut rng, mine.numbers.family);
            merge(&mut rng, &mine, &theirs);
            grow(&mut rng, &mine);
            spare(&mut rng, &mine);
            calls += 3;
        }
    }
    println!("{NAME}: {calls} calls agree");
}

/// Full ones often, since 7 is asked there.
fn some(rng: &mut Rng, shape: Shape) -> Lent {
    let hashes = Hashes::spread(rng, shape);
    let len = if rng.one_in(3) { shape.capacity() } else { some_len(rng, shape) };
    let max_qbits = if rng.one_in(3) { 0 } else { shape.qbits + rng.below(2) as u8 };
    let filter = hashes.holding(rng, max_qbits, len);
    let (numbers, bytes) = wrong::some(rng, &filter);
    Lent { numbers, bytes }
}

/// The length that fits, mostly.
fn some_dest(rng: &mut Rng, result: &Result<Filter, u64>) -> Guarded {
    let right = result.as_ref().map_or(170, |filter| filter.shape.buffer_len());
    Guarded::garbage(rng.pick(&[right, right, right, right + 1, right - 1, 0]))
}

fn merge(rng: &mut Rng, mine: &Lent, theirs: &Lent) {
    let keep = rng.one_in(2);
    let other = check(theirs.numbers, &theirs.bytes);
    let merged = check(mine.numbers, &mine.bytes).and_then(|filter| filter.merge(&other?, keep));
    let (lent, other) = ((&mine.bytes[..], mine.numbers), (&theirs.bytes[..], theirs.numbers));
    let what = format!("merge, keep {keep}, with {theirs}");
    into_dest(rng, mine, &what, merged, |dest| writing::merge(lent, other, keep, dest));
}

fn grow(rng: &mut Rng, mine: &Lent) {
    let grown = check(mine.numbers, &mine.bytes).and_then(|filter| filter.grow());
    into_dest(rng, mine, "grow", grown, |dest| writing::grow(&mine.bytes, mine.numbers, dest));
}

/// Lends a destination of some length, and compares answer, record, bytes and marks.
fn into_dest(
    rng: &mut Rng,
    mine: &Lent,
    what: &str,
    result: Result<Filter, u64>,
    write: impl Fn(&mut [u8]) -> Result<Numbers, u64>,
) {
    let mut dest = some_dest(rng, &result);
    let expected = result.and_then(|filter| filter.lent(dest.bytes().len() as u64));
    let bytes = expected.as_ref().map_or(dest.bytes().to_vec(), Filter::image);
    let numbers = expected.map(|filter| filter.numbers());
    let got = write(dest.bytes_mut());
    if got != numbers || dest.bytes() != bytes || !dest.intact() {
        let right = dest.bytes() == bytes;
        disagree(mine, what, &format!("{got:?}, expected {numbers:?}, bytes right: {right}"));
    }
}

/// Insert with a spare of some length, checked and, where the answer is fixed, quick.
fn spare(rng: &mut Rng, mine: &Lent) {
    let (hash, max_count) = (rng.next(), rng.pick(&[0, 1, u64::MAX]));
    let checked = check(mine.numbers, &mine.bytes);
    let spare = some_dest(rng, &checked.clone().and_then(|filter| filter.grow()));
    let spare_len = spare.bytes().len() as u64;
    let expected = checked.clone().and_then(|mut filter| {
        let (count, in_spare) = insert_spare(&mut filter, hash, max_count, spare_len)?;
        Ok((count, in_spare, filter))
    });
    let (mut old_bytes, mut spare_bytes) = (mine.bytes.clone(), spare.bytes().to_vec());
    if let Ok((_, in_spare, filter)) = &expected {
        *(if *in_spare { &mut spare_bytes } else { &mut old_bytes }) = filter.image();
    }
    let checked_answer =
        expected.map(|(count, in_spare, filter)| (count, in_spare, filter.numbers()));
    for quick in [false, true] {
        let expected = match checked {
            Err(6) if quick && max_count == 0 => Ok((0, false, mine.numbers)),
            Err(6) if quick => continue,
            _ => checked_answer,
        };
        let (mut old, mut spare) = (Guarded::new(&mine.bytes), spare.clone());
        let lent = (old.bytes_mut(), mine.numbers);
        let got = writing::insert_spare(quick, lent, hash, max_count, spare.bytes_mut());
        let right = old.bytes() == old_bytes && spare.bytes() == spare_bytes;
        if got != expected || !right || !old.intact() || !spare.intact() {
            let what = format!("insert {hash:#x} {max_count} with {spare_len}, quick {quick}");
            disagree(mine, &what, &format!("{got:?}, expected {expected:?}, bytes right: {right}"));
        }
    }
}

fn disagree(mine: &Lent, what: &str, differs: &str) -> ! {
    println!("{NAME}: DISAGREES\n  on {mine}\n  {what}\n  {differs}");
    std::process::exit(1)
}
