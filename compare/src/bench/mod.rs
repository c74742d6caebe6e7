//! Times the proved library beside the crate: each row does the same work twice on the same
//! bytes, by turns, and the table has the median of the ratios.

mod check;
mod clock;
mod foundation;
mod growth;
mod inputs;
mod insert;
mod list;
mod lookup;
mod remove;
mod table;
mod writing;

use crate::model::Shape;
use table::Table;

/// The shapes that show how a call grows with the filter.
fn widths() -> impl Iterator<Item = Shape> {
    [10, 14, 18, 22].into_iter().map(|qbits| Shape { qbits, rbits: 8 })
}

/// The rows of every part and below them those by width, or those whose name begins with `only`.
pub fn run(seed: u64, only: Option<&str>) {
    let mut table = Table::new(seed, only);
    rows(&mut table);
    table.begin("by width: ");
    by_width(&mut table);
    table.finish();
}

fn rows(table: &mut Table) {
    foundation::rows(table);
    check::rows(table);
    lookup::rows(table);
    list::rows(table);
    writing::rows::<insert::Insert>(table);
    writing::rows::<remove::Remove>(table);
    growth::rows(table);
}

fn by_width(table: &mut Table) {
    check::by_width(table);
    lookup::by_width(table);
    list::by_width(table);
    writing::by_width::<insert::Insert>(table);
    writing::by_width::<remove::Remove>(table);
    growth::by_width(table);
}
