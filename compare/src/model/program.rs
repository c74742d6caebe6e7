//! docs/RULES.md, "The check program": what it writes for an input.

use super::{Numbers, Shape, check};
use std::fmt::Write;

/// The largest qbits that the program takes.
const MAX_QBITS: u8 = 9;

/// The bytes in front of the buffer.
const HEADER: usize = 21;

/// The whole output for the whole input.
pub fn program(input: &[u8]) -> String {
    let held = match read(input) {
        Ok(held) => held,
        Err(number) => return format!("refused {number}\n"),
    };
    let mut out = format!("sound {}\n", held.len());
    for fingerprint in held {
        writeln!(out, "{fingerprint:016x}").expect("a string takes every line");
    }
    out
}

/// What the input holds: 13, 1, 14, 2 to 6.
fn read(input: &[u8]) -> Result<Vec<u64>, u64> {
    if input.len() < HEADER || input[..2] != [0x51, 0x46] {
        return Err(13);
    }
    let word = |at: usize| u64::from_le_bytes(input[at..at + 8].try_into().expect("eight bytes"));
    let (len, family) = (word(2), word(13));
    let numbers = Numbers { len, qbits: input[10], rbits: input[11], max_qbits: input[12], family };
    let shape = Shape::new(numbers.qbits, numbers.rbits)?;
    if shape.qbits > MAX_QBITS {
        return Err(14);
    }
    check(numbers, &input[HEADER..]).map(|filter| filter.held)
}
