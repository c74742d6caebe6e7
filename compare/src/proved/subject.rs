//! The proved library as a subject, once by its checked calls and once by its quick ones.

use super::guarded::Guarded;
use super::{reading, writing};
use crate::call::{Answer, Call, grown_len};
use crate::model::{Filter, Numbers, Shape};
use crate::subject::Subject;

/// A filter that the proved library works on.
pub struct Proved {
    quick: bool,
    numbers: Numbers,
    buffer: Guarded,
}

type Asked = Result<Answer, u64>;

impl Proved {
    /// The subject that makes the checked calls.
    pub fn checked() -> Proved {
        let numbers = Numbers { len: 0, qbits: 0, rbits: 0, max_qbits: 0, family: 0 };
        Proved { quick: false, numbers, buffer: Guarded::new(&[]) }
    }

    /// The subject that makes the quick calls.
    pub fn quick() -> Proved {
        Proved { quick: true, ..Proved::checked() }
    }

    /// Whether it makes the quick calls.
    pub fn is_quick(&self) -> bool {
        self.quick
    }

    /// Takes over any numbers and bytes, sound or not.
    pub fn load_raw(&mut self, numbers: Numbers, bytes: &[u8]) {
        self.numbers = numbers;
        self.buffer = Guarded::new(bytes);
    }

    /// The call, if it is offered: listing, growth and merge have no quick form.
    fn offered(&mut self, call: &Call, after: Numbers) -> Option<Asked> {
        match *call {
            Call::Contains { hash } => Some(self.contains(hash)),
            Call::Count { hash } => Some(self.count(hash)),
            Call::Insert { hash, max_count } => Some(self.insert(hash, max_count)),
            Call::Remove { hash } => Some(self.remove(hash)),
            Call::List if !self.quick => Some(self.list()),
            Call::InsertSpare { hash, max_count } => Some(self.insert_spare(hash, max_count)),
            Call::Grow if !self.quick => Some(self.grow(after)),
            Call::Merge { ref other, keep } if !self.quick => Some(self.merge(other, keep, after)),
            Call::List | Call::Grow | Call::Merge { .. } => None,
        }
    }

    fn contains(&self, hash: u64) -> Asked {
        let (held, compared) =
            reading::contains(self.quick, self.buffer.bytes(), self.numbers, hash)?;
        Ok(Answer::Held { held, compared: Some(compared) })
    }

    fn count(&self, hash: u64) -> Asked {
        reading::count(self.quick, self.buffer.bytes(), self.numbers, hash).map(Answer::Count)
    }

    fn insert(&mut self, hash: u64, max_count: u64) -> Asked {
        let (buffer, n) = (self.buffer.bytes_mut(), self.numbers);
        let (count, numbers) = writing::insert(self.quick, buffer, n, hash, max_count)?;
        self.numbers = numbers;
        Ok(Answer::Count(count))
    }

    fn remove(&mut self, hash: u64) -> Asked {
        let (buffer, n) = (self.buffer.bytes_mut(), self.numbers);
        let (removed, numbers) = writing::remove(self.quick, buffer, n, hash)?;
        self.numbers = numbers;
        match removed {
            0 | 1 => Ok(Answer::Removed(removed == 1)),
            _ => Ok(Answer::Broken("remove answers neither 0 nor 1")),
        }
    }

    /// Every step, and one more after it said done; as many as would be held at the most.
    fn list(&self) -> Asked {
        let (buffer, n) = (self.buffer.bytes(), self.numbers);
        let mut place = reading::list_begin(buffer, n)?;
        let (mut fingerprints, mut places) = (Vec::new(), vec![place]);
        for _ in 0..=n.len {
            let (found, next) = reading::list_step(buffer, n, place)?;
            place = next;
            let Some(fingerprint) = found else { break };
            fingerprints.push(fingerprint);
            places.push(place);
        }
        if reading::list_step(buffer, n, place)? != (None, place) {
            return Ok(Answer::Broken("done doesn't stay done"));
        }
        Ok(Answer::Listed { fingerprints, places })
    }

    fn grow(&mut self, after: Numbers) -> Asked {
        let (buffer, n) = (self.buffer.clone(), self.numbers);
        self.lend_destination(after, |dest| writing::grow(buffer.bytes(), n, dest))
    }

    fn merge(&mut self, other: &Filter, keep: bool, after: Numbers) -> Asked {
        let (buffer, n) = (self.buffer.clone(), self.numbers);
        let image = other.image();
        let other = (&image[..], other.numbers());
        self.lend_destination(after, |dest| writing::merge((buffer.bytes(), n), other, keep, dest))
    }

    /// Lends a destination of the right length, which a refusal must leave alone.
    fn lend_destination(
        &mut self,
        after: Numbers,
        write: impl Fn(&mut [u8]) -> Result<Numbers, u64>,
    ) -> Asked {
        let shape = Shape { qbits: after.qbits, rbits: after.rbits };
        let mut dest = Guarded::garbage(shape.buffer_len());
        let result = write(dest.bytes_mut());
        if !dest.intact() {
            return Ok(Answer::OUTSIDE);
        }
        if result.is_err() && dest.bytes() != Guarded::garbage(shape.buffer_len()).bytes() {
            return Ok(Answer::Broken("a refusal altered the destination"));
        }
        self.numbers = result?;
        self.buffer = dest;
        Ok(Answer::Written)
    }

    fn insert_spare(&mut self, hash: u64, max_count: u64) -> Asked {
        let spare_len = grown_len(self.numbers);
        let (old, mut spare) = (self.buffer.clone(), Guarded::garbage(spare_len));
        let lent = (self.buffer.bytes_mut(), self.numbers);
        let result = writing::insert_spare(self.quick, lent, hash, max_count, spare.bytes_mut());
        let in_spare = result.is_ok_and(|(_, in_spare, _)| in_spare);
        if !spare.intact() {
            return Ok(Answer::OUTSIDE);
        }
        if in_spare && self.buffer.bytes() != old.bytes() {
            return Ok(Answer::Broken("the old buffer was altered beside the spare"));
        }
        if !in_spare && spare.bytes() != Guarded::garbage(spare_len).bytes() {
            return Ok(Answer::Broken("the spare was altered though the old buffer counts"));
        }
        let (count, _, numbers) = result?;
        self.numbers = numbers;
        if in_spare {
            self.buffer = spare;
        }
        Ok(Answer::Spare { count, in_spare })
    }
}

impl Subject for Proved {
    fn name(&self) -> &'static str {
        if self.quick { "proved quick" } else { "proved" }
    }

    fn load(&mut self, filter: &Filter, image: &[u8]) {
        self.load_raw(filter.numbers(), image);
    }

    fn ask(&mut self, call: &Call, after: Numbers) -> Option<Answer> {
        let asked = self.offered(call, after)?;
        if !self.buffer.intact() {
            return Some(Answer::OUTSIDE);
        }
        Some(asked.unwrap_or_else(Answer::Refused))
    }

    fn numbers(&self) -> Numbers {
        self.numbers
    }

    fn bytes(&self) -> &[u8] {
        self.buffer.bytes()
    }
}
