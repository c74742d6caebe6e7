//! A fresh filter, and docs/RULES.md, "Growth", with insert with a spare, and "Merge". A destination
//! is told by its length alone, since its bytes never matter.

use super::{Filter, Fresh, Numbers, Shape, Widths};
use std::cmp::Ordering;

/// Numbers of a fresh filter: 1, 4, 12, or len 0.
pub fn fresh(fresh: Fresh, dest_len: u64) -> Result<Numbers, u64> {
    let Widths { qbits, rbits, max_qbits } = fresh.widths;
    let shape = Shape::new(qbits, rbits)?;
    if !shape.allows(max_qbits) {
        return Err(4);
    }
    let empty = Filter::new(shape, max_qbits, Vec::new()).lent(dest_len)?;
    Ok(empty.of_family(fresh.family).numbers())
}

/// Insert that grows into the spare on 7; answers the count and whether the spare counts now.
pub fn insert_spare(
    filter: &mut Filter,
    hash: u64,
    max_count: u64,
    spare_len: u64,
) -> Result<(u64, bool), u64> {
    if let Ok(count) = filter.insert(hash, max_count) {
        return Ok((count, false));
    }
    let mut grown = filter.grow()?.lent(spare_len)?;
    let count = grown.insert(hash, max_count)?;
    *filter = grown;
    Ok((count, true))
}

impl Filter {
    /// This filter, if a destination of that length can take it: 12.
    pub fn lent(self, dest_len: u64) -> Result<Filter, u64> {
        if dest_len == self.shape.buffer_len() { Ok(self) } else { Err(12) }
    }

    /// The same holding at qbits+1 and rbits-1: 7.
    pub fn grow(&self) -> Result<Filter, u64> {
        if self.max_qbits <= self.shape.qbits {
            return Err(7);
        }
        Ok(self.at(self.shape.qbits + 1, self.held.clone()))
    }

    /// This filter joined with another: 19, 8, 7.
    pub fn merge(&self, other: &Filter, keep: bool) -> Result<Filter, u64> {
        if self.family != other.family {
            return Err(19);
        }
        match other.shape.width().cmp(&self.shape.width()) {
            Ordering::Less => Err(8),
            Ordering::Equal => self.merge_equal(other, keep),
            Ordering::Greater => self.merge_wider(other, keep),
        }
    }

    fn merge_equal(&self, other: &Filter, keep: bool) -> Result<Filter, u64> {
        let mut held = [&self.held[..], &other.held[..]].concat();
        held.sort_unstable();
        if !keep {
            held.dedup();
        }
        let lens = if keep { self.len() + other.len() } else { self.len().max(other.len()) };
        let needed = lens.max(held.len() as u64);
        let largest = self.max_qbits.max(self.shape.qbits);
        let capacity = |qbits: u8| Shape { qbits, rbits: 1 }.capacity();
        let qbits = (self.shape.qbits..=largest).find(|&qbits| capacity(qbits) >= needed);
        Ok(self.at(qbits.ok_or(7u64)?, held))
    }

    fn merge_wider(&self, other: &Filter, keep: bool) -> Result<Filter, u64> {
        let mut held = self.held.clone();
        let mut added: Vec<u64> = other.held.iter().map(|&f| self.shape.fingerprint(f)).collect();
        if !keep {
            added.sort_unstable();
            added.dedup();
            added.retain(|f| held.binary_search(f).is_err());
        }
        held.extend(&added);
        if !added.is_empty() && held.len() as u64 > self.shape.capacity() {
            return Err(7);
        }
        Ok(self.at(self.shape.qbits, held))
    }

    /// A holding at another qbits, with self's width, max_qbits and family.
    fn at(&self, qbits: u8, held: Vec<u64>) -> Filter {
        let rbits = self.shape.width() - qbits;
        Filter::new(Shape { qbits, rbits }, self.max_qbits, held).of_family(self.family)
    }
}
