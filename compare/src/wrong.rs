//! Sound filters with one or two things wrong about them, for the order of refusals.

use crate::model::{Filter, Numbers};
use crate::seed::Rng;

#[derive(Clone, Copy, Debug)]
enum Edit {
    Nothing,
    Qbits(u8),
    Rbits(u8),
    Len(u64),
    MaxQbits(u8),
    Longer,
    Shorter,
    Empty,
    Flip,
    LastByte,
}

/// Every edit on its own and every pair of two.
pub fn each(rng: &mut Rng, filter: &Filter, see: &mut impl FnMut(&mut Rng, Numbers, &[u8])) {
    let (numbers, image) = (filter.numbers(), filter.image());
    let edits = edits(filter);
    for &first in &edits {
        for &second in &edits {
            let (mut n, mut bytes) = (numbers, image.clone());
            first.apply(rng, &mut n, &mut bytes);
            second.apply(rng, &mut n, &mut bytes);
            see(rng, n, &bytes);
        }
    }
}

/// One form, sound half of the time.
pub fn some(rng: &mut Rng, filter: &Filter) -> (Numbers, Vec<u8>) {
    let (mut numbers, mut bytes) = (filter.numbers(), filter.image());
    if rng.one_in(2) {
        let edits = edits(filter);
        rng.pick(&edits).apply(rng, &mut numbers, &mut bytes);
        rng.pick(&edits).apply(rng, &mut numbers, &mut bytes);
    }
    (numbers, bytes)
}

fn edits(filter: &Filter) -> Vec<Edit> {
    let (n, width) = (filter.numbers(), filter.shape.width());
    let (slots, capacity) = (filter.shape.slots(), filter.shape.capacity());
    let mut edits =
        vec![Edit::Nothing, Edit::Longer, Edit::Shorter, Edit::Empty, Edit::Flip, Edit::LastByte];
    edits.extend([0, 5, n.qbits - 1, n.qbits + 1, 60, 64, 255].map(Edit::Qbits));
    edits.extend([0, n.rbits - 1, n.rbits + 1, 65 - n.qbits, 255].map(Edit::Rbits));
    edits.extend([capacity, capacity + 1, slots - 1].map(Edit::Len));
    edits.extend([slots, slots + 1, u64::MAX].map(Edit::Len));
    edits.extend([n.len.wrapping_sub(1), n.len + 1].map(Edit::Len));
    edits.extend([0, 1, n.qbits - 1, n.qbits, width - 1, width, 59, 60, 255].map(Edit::MaxQbits));
    edits
}

impl Edit {
    fn apply(self, rng: &mut Rng, n: &mut Numbers, bytes: &mut Vec<u8>) {
        match self {
            Edit::Nothing => {}
            Edit::Qbits(qbits) => n.qbits = qbits,
            Edit::Rbits(rbits) => n.rbits = rbits,
            Edit::Len(len) => n.len = len,
            Edit::MaxQbits(max_qbits) => n.max_qbits = max_qbits,
            Edit::Longer => bytes.push(0),
            Edit::Shorter => bytes.truncate(bytes.len().saturating_sub(1)),
            Edit::Empty => bytes.clear(),
            Edit::Flip if !bytes.is_empty() => {
                let at = rng.below(bytes.len() as u64) as usize;
                bytes[at] ^= 1 << rng.below(8);
            }
            Edit::LastByte if !bytes.is_empty() => *bytes.last_mut().expect("not empty") ^= 1,
            Edit::Flip | Edit::LastByte => {}
        }
    }
}
