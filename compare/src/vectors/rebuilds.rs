//! Growth, insert with a spare, and merge.

use super::replay::{Line, Replay, widths};
use super::script::{FAMILY, MAX, SPREADING, each, fresh, fresh_of};
use crate::model::Shape;

/// Growth from 6 to 9 bits of quotient, of one long run, and where it may not be.
pub fn growths(replay: &mut Replay) {
    let shape = Shape { qbits: 6, rbits: 58 };
    fresh(replay, shape, 9);
    replay.call(Line('a', 0x0123_4567_89ab_cdef, SPREADING, 61));
    each(replay, [Line('i', 1, 1, 0), Line('g', 953, 0, 0), Line('g', 955, 0, 0)]);
    for (qbits, rbits) in [(7, 57), (8, 56), (9, 55)] {
        replay.call(Line('g', Shape { qbits, rbits }.buffer_len(), 0, 0));
        each(replay, [Line('d', 0, 0, 0), Line('k', 0, 0, 0), Line('i', 1, 2, 0)]);
        each(replay, [Line('l', 0, 0, 0), Line('S', 0, 0, 0), Line('n', 1, 0, 0)]);
    }
    each(replay, [Line('g', 3664, 0, 0), Line('g', 0, 0, 0)]);
    // One long run, which falls apart by its remainders' highest bit.
    fresh(replay, Shape { qbits: 7, rbits: 8 }, 8);
    each(replay, [Line('a', 0x7f00, 4, 90), Line('g', 300, 0, 0), Line('d', 0, 0, 0)]);
    each(replay, [Line('k', 0, 0, 0), Line('g', 300, 0, 0)]);
    fresh(replay, Shape { qbits: 6, rbits: 8 }, 0);
    replay.call(Line('g', 170, 0, 0));
}

/// Inserts with a spare: in the old buffer up to capacity, then in a spare of the right length.
pub fn spares(replay: &mut Replay) {
    let (small, large) = (Shape { qbits: 6, rbits: 8 }, Shape { qbits: 7, rbits: 7 });
    let grown = large.buffer_len();
    fresh(replay, small, 7);
    each(replay, [Line('a', 0x0201, SPREADING, 59), Line('p', 0x0201, 1, grown)]);
    each(replay, [Line('p', 0x0202, MAX, 0), Line('P', 0x0203, MAX, grown)]);
    // Full: enough copies need no room, and the spare is looked at only then, so never with 0.
    each(replay, [Line('p', 0x0203, 1, 0), Line('p', 0x0204, 1, grown - 1)]);
    each(replay, [Line('p', 0x0204, 0, grown), Line('P', 0x0204, 0, grown - 1)]);
    each(replay, [Line('p', 0x0204, 1, grown), Line('P', 0x0203, 2, grown), Line('d', 0, 0, 0)]);
    each(replay, [Line('k', 0, 0, 0), Line('n', 0x0203, 0, 0), Line('p', 0x0204, 1, 300)]);
    each(replay, [Line('a', 0x0301, SPREADING, 122), Line('p', 0x3f00, MAX, 300)]);
    replay.call(Line('r', 128, widths(7, 7, 7), grown));
    each(replay, [Line('p', 0, 1, 300), Line('P', 0, 1, 300)]);
}

/// The filter of these hashes as the other one.
fn other(replay: &mut Replay, shape: Shape, first: u64, step: u64, times: u64) {
    fresh(replay, shape, 0);
    each(replay, [Line('a', first, step, times), Line('o', 0, 0, 0)]);
}

/// Merges of equal, wider and narrower fingerprints.
pub fn merges(replay: &mut Replay) {
    let small = Shape { qbits: 6, rbits: 8 };
    equal_merges(replay, small);
    wider_merges(replay, small);
    refused_merges(replay, small);
    families(replay, small);
}

/// Equal widths: multiplicities add, or each is held once; capacity may ask for a larger one.
fn equal_merges(replay: &mut Replay, small: Shape) {
    other(replay, Shape { qbits: 7, rbits: 7 }, 0x105, 0x33, 50);
    for (max_qbits, count, sizes) in [(0, 20, [89, 154]), (7, 20, [89, 154]), (7, 61, [154, 89])] {
        fresh(replay, small, max_qbits);
        replay.call(Line('a', 0x105, 0x66, count));
        replay.call(Line('a', 0x105, 0, 3));
        for size in sizes {
            each(replay, [Line('j', size, 1, 0), Line('j', size, 0, 0)]);
        }
        each(replay, [Line('j', 90, 1, 0), Line('d', 0, 0, 0), Line('k', 0, 0, 0)]);
    }
    // As many as fit, and one more; then a side whose repeats count once.
    other(replay, small, 0x0001, 0x104, 31);
    for (max_qbits, count) in [(0, 30), (7, 31), (0, 31)] {
        fresh(replay, small, max_qbits);
        replay.call(Line('a', 0x2080, 0x0101, count));
        each(replay, [Line('j', 89, 1, 0), Line('j', 154, 1, 0)]);
    }
    other(replay, small, 0x0001, 0, 40);
    fresh(replay, small, 0);
    each(replay, [Line('a', 0x2080, 0x0101, 30), Line('j', 89, 0, 0), Line('j', 89, 1, 0)]);
}

/// Other wider: cut to self's width, and 7 where an added copy would pass capacity.
fn wider_merges(replay: &mut Replay, small: Shape) {
    other(replay, Shape { qbits: 7, rbits: 8 }, 0x4105, 0x33, 40);
    for count in [0, 15, 30, 60] {
        fresh(replay, small, 0);
        replay.call(Line('a', 0x105, 0x66, count));
        each(replay, [Line('j', 89, 0, 0), Line('j', 89, 1, 0), Line('j', 170, 0, 0)]);
        each(replay, [Line('d', 0, 0, 0), Line('k', 0, 0, 0)]);
    }
    // Two that are cut to the same are one.
    fresh(replay, Shape { qbits: 7, rbits: 8 }, 0);
    each(replay, [Line('a', 0x0010, 0x100, 10), Line('a', 0x4010, 0x100, 10), Line('o', 0, 0, 0)]);
    fresh(replay, small, 0);
    each(replay, [Line('a', 0x0020, 0x100, 51), Line('j', 89, 0, 0), Line('j', 89, 1, 0)]);
}

/// Other narrower, and then wrong filters: the first's number comes first, then the second's.
fn refused_merges(replay: &mut Replay, small: Shape) {
    other(replay, Shape { qbits: 6, rbits: 7 }, 0x105, 0x33, 30);
    fresh(replay, small, 0);
    each(replay, [Line('a', 0x105, 0x66, 61), Line('j', 89, 1, 0), Line('j', 0, 0, 0)]);
    each(
        replay,
        [Line('o', 0, 0, 0), Line('b', 80, 1, 0), Line('o', 0, 0, 0), Line('j', 89, 1, 0)],
    );
    each(replay, [Line('r', 64, widths(6, 8, 0), 89), Line('j', 0, 1, 0), Line('o', 0, 0, 0)]);
    each(replay, [Line('j', 0, 1, 0), Line('b', 80, 0, 0), Line('j', 0, 1, 0), Line('k', 0, 0, 0)]);
}

/// Two families: 19, where nothing else is due and where 8, 7 or 12 is, but after the other's 6.
/// Within one, whichever it is, none; and the result goes on in it.
fn families(replay: &mut Replay, small: Shape) {
    for rbits in [8, 9, 7] {
        other(replay, Shape { qbits: 6, rbits }, 0x105, 0x33, 30);
        for (family, count) in [(FAMILY ^ 1, 10), (FAMILY ^ 1 << 63, 61), (0, 61)] {
            fresh_of(replay, small, 0, family);
            replay.call(Line('a', 0x105, 0x66, count));
            each(replay, [Line('j', 89, 1, 0), Line('j', 89, 0, 0), Line('j', 0, 0, 0)]);
        }
    }
    each(replay, [Line('o', 0, 0, 0), Line('b', 80, 1, 0), Line('o', 0, 0, 0)]);
    each(replay, [Line('j', 89, 1, 0), Line('o', 0, 0, 0), Line('j', 81, 1, 0)]);
    for family in [0, MAX] {
        fresh_of(replay, small, 0, family);
        each(replay, [Line('a', 0x0201, 0x77, 20), Line('o', 0, 0, 0)]);
        fresh(replay, small, 7);
        each(replay, [Line('a', 0x0301, 0x66, 20), Line('j', 89, 1, 0)]);
        fresh_of(replay, small, 7, family);
        each(replay, [Line('a', 0x0301, 0x66, 50), Line('j', 154, 1, 0), Line('d', 0, 0, 0)]);
        each(replay, [Line('m', 0x0301, 0, 0), Line('i', 0x0301, MAX, 0), Line('k', 0, 0, 0)]);
    }
}
