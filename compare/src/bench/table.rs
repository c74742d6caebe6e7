//! The table: times both sides by turns, and prints a row of markdown for each comparison.

use crate::seed::Rng;

/// A row has the median of so many rounds.
const ROUNDS: usize = 11;

/// The table so far.
pub struct Table {
    seed: u64,
    only: Option<String>,
    /// Stands before the names of rows.
    family: &'static str,
    rows: u64,
}

/// What one batch of work took in nanoseconds, and a digest of its answers and bytes.
pub type Batch = (u64, u64);

/// How a row divides its work: `batches` at a time, `operations` in all of them together.
#[derive(Clone, Copy)]
pub struct Work {
    pub batches: usize,
    pub operations: u64,
}

impl Table {
    /// Prints the head of the table.
    pub fn new(seed: u64, only: Option<&str>) -> Table {
        println!("| part | row | crate ns | proved ns | ratio | middle half |");
        println!("|---|---|---|---|---|---|");
        Table { seed, only: only.map(str::to_owned), family: "", rows: 0 }
    }

    /// The rows from now on belong together.
    pub fn begin(&mut self, family: &'static str) {
        self.family = family;
    }

    /// Whether the row was asked for; its inputs need not be made otherwise.
    pub fn wants(&self, name: &str) -> bool {
        let name = format!("{}{name}", self.family);
        self.only.as_deref().is_none_or(|only| name.starts_with(only))
    }

    /// A source of its own for each row, whatever the others draw.
    pub fn rng(&self, name: &str) -> Rng {
        Rng::new(self.seed, name)
    }

    /// Does every batch on both sides, in changing order; the digests must agree.
    pub fn row(
        &mut self,
        part: &str,
        name: &str,
        work: Work,
        mut original: impl FnMut(usize) -> Batch,
        mut proved: impl FnMut(usize) -> Batch,
    ) {
        let (mut theirs, mut ours, mut ratios) = (Vec::new(), Vec::new(), Vec::new());
        for round in 0..=ROUNDS {
            let mut sums = [0; 2];
            for batch in 0..work.batches {
                let (first, second) = if (round + batch) % 2 == 0 {
                    let first = original(batch);
                    (first, proved(batch))
                } else {
                    let second = proved(batch);
                    (original(batch), second)
                };
                assert!(first.1 == second.1, "{name}: the proved library answers otherwise");
                sums[0] += first.0;
                sums[1] += second.0;
            }
            // The first round only fills the caches.
            if round > 0 {
                let each = |sum: u64| sum as f64 / work.operations as f64;
                theirs.push(each(sums[0]));
                ours.push(each(sums[1]));
                ratios.push(sums[1] as f64 / sums[0] as f64);
            }
        }
        let [low, ratio, high] = quartiles(&mut ratios);
        let (theirs, ours) = (quartiles(&mut theirs)[1], quartiles(&mut ours)[1]);
        let row = format!("| {part} | {}{name} | {theirs:.1} | {ours:.1}", self.family);
        println!("{row} | {ratio:.2} | {low:.2} to {high:.2} |");
        self.rows += 1;
    }

    /// Fails if `only` left out every row.
    pub fn finish(self) {
        assert!(self.rows > 0, "no row of that name in this build");
    }
}

/// The first quartile, the median and the third.
fn quartiles(values: &mut [f64]) -> [f64; 3] {
    values.sort_by(f64::total_cmp);
    [1, 2, 3].map(|quarter| values[(values.len() - 1) * quarter / 4])
}
