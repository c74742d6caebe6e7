//! Calls on numbers and bytes that may not be sound: what docs/RULES.md fixes about them, and
//! whether the proved library keeps to it.

use super::subject::Proved;
use crate::call::{Answer, Call, ask_model};
use crate::model::{Numbers, Shape, check};
use crate::sequence::{Expected, ask};
use crate::subject::Subject;

/// What became of a call.
pub enum Seen {
    /// The call isn't in this build.
    NotOffered,
    /// The answer is fixed, and was given.
    Agreed,
    /// Number 6 is due and the call is quick: it ended, and stayed inside the blocks.
    Ended,
}

/// Asks a call on anything; what is wrong comes back in words.
pub fn compare(
    subject: &mut Proved,
    numbers: Numbers,
    bytes: &[u8],
    call: &Call,
) -> Result<Seen, String> {
    subject.load_raw(numbers, bytes);
    let due = check(numbers, bytes);
    let expected = match due {
        Err(6) if subject.is_quick() => match looked(call) {
            Some(answer) => Expected { answer, numbers, image: bytes.to_vec() },
            None => return free(subject, bytes, call),
        },
        Err(number) => Expected { answer: Answer::Refused(number), numbers, image: bytes.to_vec() },
        Ok(mut filter) => {
            let answer = ask_model(&mut filter, call);
            Expected { answer, numbers: filter.numbers(), image: filter.image() }
        }
    };
    match ask(subject, call, &expected) {
        None => Ok(Seen::NotOffered),
        Some(result) => result.map(|()| Seen::Agreed),
    }
}

/// The answer of an insert with max_count 0, which is fixed on a damaged buffer too.
fn looked(call: &Call) -> Option<Answer> {
    match call {
        Call::Insert { max_count: 0, .. } => Some(Answer::Count(0)),
        Call::InsertSpare { max_count: 0, .. } => Some(Answer::Spare { count: 0, in_spare: false }),
        _ => None,
    }
}

/// Any other quick call where 6 is due: neither answer, len nor blocks are fixed, all else is. The
/// spare stays whole and is not named, an insert that is refused has changed nothing, and len is at
/// most capacity.
fn free(subject: &mut Proved, bytes: &[u8], call: &Call) -> Result<Seen, String> {
    let before = subject.numbers();
    let Some(answer) = subject.ask(call, before) else {
        return Ok(Seen::NotOffered);
    };
    if let Answer::Broken(what) = answer {
        return Err(what.into());
    }
    if matches!(answer, Answer::Spare { in_spare: true, .. }) {
        return Err("a damaged buffer grew into the spare".into());
    }
    let after = subject.numbers();
    let shape = Shape { qbits: before.qbits, rbits: before.rbits };
    if after != (Numbers { len: after.len, ..before }) || after.len > shape.capacity() {
        return Err(format!("the record is {after:?} afterwards"));
    }
    let last_eight = |bytes: &[u8]| bytes[bytes.len() - 8..].to_vec();
    if last_eight(subject.bytes()) != last_eight(bytes) {
        return Err("the last eight bytes were altered".into());
    }
    let inserts = matches!(call, Call::Insert { .. } | Call::InsertSpare { .. });
    let refused = inserts && matches!(answer, Answer::Refused(_));
    if (refused || !call.writes()) && subject.bytes() != bytes {
        return Err("a reader, or an insert that is refused, altered the buffer".into());
    }
    Ok(Seen::Ended)
}
