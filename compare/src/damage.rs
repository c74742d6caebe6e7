//! Numbers and bytes that are not, or not quite, a sound filter. Some are sound all the same:
//! another holding's image may be one flip away.

use crate::model::{Filter, Numbers};
use crate::seed::Rng;

/// Hands every damaged form of a sound filter to `see`.
pub fn each(rng: &mut Rng, filter: &Filter, flips: bool, see: &mut impl FnMut(Numbers, &[u8])) {
    let (numbers, image) = (filter.numbers(), filter.image());
    for len in [numbers.len.wrapping_sub(1), numbers.len, numbers.len + 1] {
        see(Numbers { len, ..numbers }, &image);
    }
    if flips {
        flipped(&image, &mut |bytes| see(numbers, bytes));
    }
    swapped(rng, &image, &mut |bytes| see(numbers, bytes));
    offsets(filter, &image, &mut |bytes| see(numbers, bytes));
    unused(filter, &image, &mut |bytes| see(numbers, bytes));
    several(rng, filter, &image, &mut |bytes| see(numbers, bytes));
    whole(rng, filter, &image, &mut |bytes| see(numbers, bytes));
}

/// Every single bit.
fn flipped(image: &[u8], see: &mut impl FnMut(&[u8])) {
    let mut bytes = image.to_vec();
    for bit in 0..8 * bytes.len() {
        bytes[bit / 8] ^= 1 << (bit % 8);
        see(&bytes);
        bytes[bit / 8] ^= 1 << (bit % 8);
    }
}

/// Neighbours, and bytes anywhere.
fn swapped(rng: &mut Rng, image: &[u8], see: &mut impl FnMut(&[u8])) {
    let len = image.len() as u64;
    for _ in 0..60 {
        let a = rng.below(len) as usize;
        let b = if rng.one_in(2) { rng.below(len) as usize } else { (a + 1) % image.len() };
        let mut bytes = image.to_vec();
        bytes.swap(a, b);
        see(&bytes);
    }
}

/// Offset bytes one off, and at the edge where they saturate.
fn offsets(filter: &Filter, image: &[u8], see: &mut impl FnMut(&[u8])) {
    let block_len = filter.shape.block_len() as usize;
    for block in 0..filter.shape.blocks() as usize {
        let offset = image[block * block_len];
        let mut bytes = image.to_vec();
        for wrong in [offset.wrapping_sub(1), offset.wrapping_add(1), 0, 64, 253, 254, 255] {
            bytes[block * block_len] = wrong;
            see(&bytes);
        }
    }
}

/// What a careless removal leaves in a slot: a remainder, a runend; and the last eight bytes.
fn unused(filter: &Filter, image: &[u8], see: &mut impl FnMut(&[u8])) {
    let shape = filter.shape;
    let mut used = vec![false; shape.slots() as usize];
    filter
        .places()
        .iter()
        .take(filter.held.len())
        .for_each(|place| used[place.slot as usize] = true);
    for slot in (0..used.len()).filter(|&slot| !used[slot]).take(40) {
        let block = slot / 64 * shape.block_len() as usize;
        let remainder = slot % 64 * usize::from(shape.rbits);
        for bit in [8 * (block + 9) + slot % 64, 8 * (block + 17) + remainder] {
            let mut bytes = image.to_vec();
            bytes[bit / 8] |= 1 << (bit % 8);
            see(&bytes);
        }
    }
    for last in 1..=8 {
        let mut bytes = image.to_vec();
        bytes[image.len() - last] = 1 << (last - 1);
        see(&bytes);
    }
}

/// A few bits of the occupieds and runends of one block at once, so that their counts still fit.
fn several(rng: &mut Rng, filter: &Filter, image: &[u8], see: &mut impl FnMut(&[u8])) {
    for _ in 0..80 {
        let block = rng.below(filter.shape.blocks()) * filter.shape.block_len();
        let mut bytes = image.to_vec();
        for from in [1, 9] {
            let word = (block + from) as usize;
            for _ in 0..1 + rng.below(2) {
                bytes[word + rng.below(8) as usize] ^= 1 << rng.below(8);
            }
        }
        see(&bytes);
    }
}

/// Blocks turned round by one, blocks exchanged, all ones, all zero, and noise.
fn whole(rng: &mut Rng, filter: &Filter, image: &[u8], see: &mut impl FnMut(&[u8])) {
    let block_len = filter.shape.block_len() as usize;
    let blocks = image.len() - 8;
    let mut bytes = image.to_vec();
    bytes[..blocks].rotate_left(block_len);
    see(&bytes);
    let (a, b) =
        (rng.below(filter.shape.blocks()) as usize, rng.below(filter.shape.blocks()) as usize);
    let mut bytes = image.to_vec();
    (0..block_len).for_each(|i| bytes.swap(a * block_len + i, b * block_len + i));
    see(&bytes);
    let mut ones = vec![255; image.len()];
    see(&ones);
    ones[blocks..].fill(0);
    see(&ones);
    see(&vec![0; image.len()]);
    see(&rng.bytes(image.len() as u64));
}
