//! What `crates/vectors` keeps between its calls, with the original in the place of the proved
//! code, and the model for an insert with max_count 0 and a merge of two families: each call's line
//! of the list, and the line that answers it. The family stands beside the original's record.

use super::lent::Lent;
use super::listing::Listing;
use super::plans;
use crate::model::{self, Filter, Numbers, Widths};
use crate::original::{number_of, numbers_of};
use std::fmt::Write;

/// A letter and three numbers.
#[derive(Clone, Copy)]
pub struct Line(pub char, pub u64, pub u64, pub u64);

/// Three buffers, a listing, and what was called and answered so far.
pub struct Replay {
    own: Lent,
    other: Lent,
    dest: Lent,
    listing: Listing,
    /// The list.
    pub script: String,
    /// Its answers.
    pub answers: String,
}

/// Widths as the list has them.
pub fn widths(qbits: u8, rbits: u8, max_qbits: u8) -> u64 {
    u64::from_be_bytes([0, 0, 0, 0, 0, qbits, rbits, max_qbits])
}

/// A record of these widths.
fn numbers(len: u64, widths: u64, family: u64) -> Numbers {
    let [.., qbits, rbits, max_qbits] = widths.to_be_bytes();
    Numbers { len, qbits, rbits, max_qbits, family }
}

/// A record in words.
fn shown(n: Numbers) -> String {
    format!("{} {} {} {} {:016x}", n.len, n.qbits, n.rbits, n.max_qbits, n.family)
}

impl Replay {
    /// Nothing called yet.
    pub fn new() -> Replay {
        Replay {
            own: Lent::new(),
            other: Lent::new(),
            dest: Lent::new(),
            listing: Listing::default(),
            script: String::new(),
            answers: String::new(),
        }
    }

    /// The filter that the calls are on, if it is one.
    pub fn filter(&self) -> Filter {
        self.own.check().expect("a sound filter")
    }

    /// The family of the filter that the calls are on.
    fn family(&self) -> u64 {
        self.own.numbers.family
    }

    /// Makes a call, and writes its line and the answer.
    pub fn call(&mut self, line: Line) {
        let Line(kind, x, y, z) = line;
        let answer = self.answer(line).unwrap_or_else(|number| format!("refused {number}"));
        writeln!(self.script, "{kind} {x:x} {y:x} {z:x}").expect("memory");
        let after = match kind {
            'f' | 'i' | 'I' | 'm' | 'M' | 'a' | 'x' | 'b' => {
                let Numbers { len, family, .. } = self.own.numbers;
                format!(" {len} {family:016x} {:08x}", self.own.sum())
            }
            'g' | 'j' => format!(" {:08x}", self.dest.sum()),
            'p' | 'P' => {
                let (own, dest) = (self.own.sum(), self.dest.sum());
                let holder = if answer.starts_with("spare") { 2 } else { 1 };
                format!(" {own:08x} {dest:08x} {holder}")
            }
            's' | 'S' => self.listing.place(),
            _ => String::new(),
        };
        writeln!(self.answers, "{answer}{after}").expect("memory");
    }

    fn answer(&mut self, Line(kind, x, y, z): Line) -> Result<String, u64> {
        match kind {
            'e' => Ok(plans::select(x, y)),
            'q' => plans::slots(x),
            't' => plans::specs(x, f64::from_bits(y)),
            'w' => plans::plan(x, y, f64::from_bits(z)),
            'k' => self.own.check().map(|_| "sound".into()),
            'c' | 'C' => self.contains(kind, x),
            'n' | 'N' => self.count(kind, x),
            'l' => self.begin(),
            's' => self.step(),
            'S' => Ok(format!("{} {}", self.step()?, self.step()?)),
            'f' => self.fresh(x, y, z),
            'i' | 'I' => self.insert(kind, x, y),
            'm' | 'M' => self.remove(kind, x),
            'a' | 'x' => self.many(kind, x, y, z),
            'b' => Ok(self.damage(x, y)),
            'g' => self.grow(x),
            'p' | 'P' => self.insert_with_spare(kind, x, y, z),
            'j' => self.merge(x, y),
            _ => Ok(self.arrange(kind, x, y, z)),
        }
    }

    /// An insert with max_count 0, for which the original adds, so that the model is asked. Where
    /// number 6 is due a quick one answers 0 too.
    fn look(&self, kind: char, hash: u64) -> Result<u64, u64> {
        match self.own.check() {
            Err(6) if kind.is_uppercase() => Ok(0),
            sound => sound?.insert(hash, 0),
        }
    }

    /// The filter for any other call; a quick one is never asked where number 6 is due.
    fn sound(&self, kind: char) -> Result<Filter, u64> {
        let sound = self.own.check();
        assert!(sound != Err(6) || kind.is_lowercase(), "no answer is fixed there");
        sound
    }

    fn contains(&self, kind: char, hash: u64) -> Result<String, u64> {
        let (held, compared) = self.sound(kind)?.contains(hash);
        assert_eq!(self.own.original().contains_fingerprint(hash), held);
        Ok(format!("{} {compared}", if held { "held" } else { "absent" }))
    }

    fn count(&self, kind: char, hash: u64) -> Result<String, u64> {
        self.sound(kind)?;
        Ok(format!("copies {}", self.own.original().count_fingerprint(hash)))
    }

    fn insert(&mut self, kind: char, hash: u64, max_count: u64) -> Result<String, u64> {
        if max_count == 0 {
            return Ok(format!("counted {}", self.look(kind, hash)?));
        }
        self.sound(kind)?;
        let mut filter = self.own.original();
        let count = filter.insert_without_growth(max_count, hash).map_err(number_of)?;
        self.own.take(&filter, self.family())?;
        Ok(format!("counted {count}"))
    }

    fn remove(&mut self, kind: char, hash: u64) -> Result<String, u64> {
        self.sound(kind)?;
        let mut filter = self.own.original();
        let gone = filter.remove_fingerprint(hash);
        self.own.take(&filter, self.family())?;
        Ok(if gone { "gone" } else { "absent" }.into())
    }

    fn many(&mut self, kind: char, hash: u64, step: u64, times: u64) -> Result<String, u64> {
        for i in 0..times {
            let hash = hash.wrapping_add(step.wrapping_mul(i));
            // A refusal among many is passed over.
            let _ =
                if kind == 'a' { self.insert('I', hash, u64::MAX) } else { self.remove('M', hash) };
        }
        Ok("many".into())
    }

    fn begin(&mut self) -> Result<String, u64> {
        self.own.check()?;
        self.listing = Listing::of(&self.own.original());
        Ok(format!("at{}", self.listing.place()))
    }

    /// A step asks 1 to 5 alone.
    fn step(&mut self) -> Result<String, u64> {
        model::due_before_image(self.own.numbers, self.own.bytes().len() as u64)?;
        Ok(self.listing.step())
    }

    fn fresh(&mut self, size: u64, widths: u64, family: u64) -> Result<String, u64> {
        self.own.size = size;
        let Numbers { qbits, rbits, max_qbits, .. } = numbers(0, widths, family);
        let widths = Widths { qbits, rbits, max_qbits };
        self.own.numbers = model::fresh(widths.family(family), size)?;
        self.own.room[..size as usize].fill(0);
        Ok("fresh".into())
    }

    fn damage(&mut self, at: u64, byte: u64) -> String {
        self.own.room[at as usize] = byte as u8;
        "byte".into()
    }

    fn grow(&mut self, size: u64) -> Result<String, u64> {
        self.dest.size = size;
        self.own.check()?;
        let grown = self.own.original().grown().map_err(number_of)?;
        self.rebuilt(&grown)
    }

    /// The growth hidden in the original's insert.
    fn insert_with_spare(
        &mut self,
        kind: char,
        hash: u64,
        max_count: u64,
        size: u64,
    ) -> Result<String, u64> {
        self.dest.size = size;
        if max_count == 0 {
            let count = self.look(kind, hash)?;
            return Ok(format!("old {count} {}", shown(self.own.numbers)));
        }
        self.sound(kind)?;
        let mut filter = self.own.original();
        let count = filter.insert_fingerprint_counting(max_count, hash).map_err(number_of)?;
        let family = self.family();
        let n = Numbers { family, ..numbers_of(&filter) };
        let grown = n.qbits != self.own.numbers.qbits;
        if grown {
            self.dest.take(&filter, family)?
        } else {
            self.own.take(&filter, family)?
        }
        let place = if grown { "spare" } else { "old" };
        Ok(format!("{place} {count} {}", shown(n)))
    }

    fn merge(&mut self, size: u64, keep: u64) -> Result<String, u64> {
        self.dest.size = size;
        let mine = self.own.check()?;
        let theirs = self.other.check()?;
        // The original asks nothing of the families.
        if mine.family != theirs.family {
            return Err(mine.merge(&theirs, keep != 0).expect_err("two families"));
        }
        let mut merged = self.own.original();
        merged.merge(keep != 0, &self.other.original()).map_err(number_of)?;
        self.rebuilt(&merged)
    }

    fn rebuilt(&mut self, filter: &qfilter::Filter) -> Result<String, u64> {
        self.dest.take(filter, self.family())?;
        Ok(format!("filter {}", shown(self.dest.numbers)))
    }

    /// What calls nothing: a record given, and buffers that change places.
    fn arrange(&mut self, kind: char, x: u64, y: u64, z: u64) -> String {
        match kind {
            'r' => (self.own.numbers, self.own.size) = (numbers(x, y, self.family()), z),
            'o' => std::mem::swap(&mut self.own, &mut self.other),
            'd' => std::mem::swap(&mut self.own, &mut self.dest),
            _ => panic!("no call {kind}"),
        }
        if kind == 'r' { "record" } else { "swapped" }.into()
    }
}
