//! docs/RULES.md, "Select".

/// Where the n-th one stands, the first being number 0; or nowhere.
pub fn select(x: u64, n: u64) -> Option<u64> {
    let mut ones = (0..64).filter(|i| x >> i & 1 == 1);
    ones.nth(usize::try_from(n).ok()?)
}
