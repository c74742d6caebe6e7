//! Every refusal of numbers 1 to 6, and 12 of a fresh filter.

use super::replay::{Line, Replay, widths};
use super::script::{MAX, each, fresh};
use crate::model::Shape;

/// Every checked call, and a step, on a record or a buffer that is wrong; nothing is altered.
pub fn refusals(replay: &mut Replay) {
    let shape = Shape { qbits: 6, rbits: 8 };
    fresh(replay, shape, 0);
    each(replay, [Line('a', 0x101, 0x80, 20), Line('l', 0, 0, 0), Line('s', 0, 0, 0)]);
    let right = widths(6, 8, 0);
    wrong_records(replay, right);
    damaged_bytes(replay, right);
    // A fresh filter asks 1, 4, 12.
    let asked = [(89, 5, 8, 99), (88, 6, 8, 5), (88, 6, 8, 0), (90, 6, 8, 0), (0, 6, 8, 13)];
    each(replay, asked.map(|(size, q, r, max)| Line('f', size, widths(q, r, max), MAX)));
    replay.call(Line('r', 20, right, 89));
    replay.call(Line('k', 0, 0, 0));
}

/// Numbers 1 to 5.
fn wrong_records(replay: &mut Replay, right: u64) {
    let wrong = [
        (20, widths(5, 8, 0), 89),
        (20, widths(60, 1, 0), 89),
        (20, widths(6, 0, 0), 89),
        (20, widths(6, 59, 0), 89),
        (20, widths(6, 8, 5), 88),
        (65, right, 90),
        (65, widths(6, 8, 5), 89),
        (64, widths(6, 8, 5), 89),
        (20, widths(6, 8, 14), 89),
        (20, widths(6, 58, 60), 489),
        (64, right, 89),
        (62, widths(6, 8, 13), 89),
    ];
    for (len, widths, size) in wrong {
        replay.call(Line('r', len, widths, size));
        refused(replay);
        each(replay, [Line('C', 0x101, 0, 0), Line('I', 0x101, 1, 0), Line('s', 0, 0, 0)]);
    }
}

/// Number 6: a len that is off by one, then a damaged byte of each kind, put right again.
fn damaged_bytes(replay: &mut Replay, right: u64) {
    each(replay, [Line('r', 19, right, 89), Line('k', 0, 0, 0), Line('r', 21, right, 89)]);
    refused(replay);
    replay.call(Line('r', 20, right, 89));
    let bytes = replay.filter().image();
    for at in [0, 1, 8, 9, 16, 17, 40, 80, 81, 88] {
        let byte = u64::from(bytes[at]);
        each(replay, [Line('b', at as u64, byte ^ 0x10, 0), Line('k', 0, 0, 0)]);
        each(replay, [Line('i', 0x101, 1, 0), Line('b', at as u64, byte, 0)]);
    }
    // Two remainders of one run change places.
    each(replay, [Line('b', 18, 0x81, 0), Line('b', 19, 0x01, 0), Line('k', 0, 0, 0)]);
    each(replay, [Line('b', 18, 0x01, 0), Line('b', 19, 0x81, 0), Line('k', 0, 0, 0)]);
    replay.call(Line('b', 3, 0xff, 0));
    refused(replay);
    // With max_count 0 a quick insert is fixed there too.
    each(replay, [Line('i', 0x101, 0, 0), Line('I', 0x101, 0, 0), Line('P', 0x101, 0, 170)]);
    each(replay, [Line('b', 3, bytes[3].into(), 0), Line('k', 0, 0, 0)]);
}

/// Every checked call on one filter.
fn refused(replay: &mut Replay) {
    each(replay, ['k', 'c', 'n', 'm', 'l'].map(|kind| Line(kind, 0x101, 0, 0)));
    each(replay, [Line('i', 0x101, MAX, 0), Line('g', 170, 0, 0), Line('j', 89, 1, 0)]);
    replay.call(Line('p', 0x101, MAX, 170));
}
