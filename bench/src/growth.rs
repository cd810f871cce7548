//! How planning grows: ranks 2 to 64 with 1, 2, 4 and 8 operands, on both sides.

use crate::layouts;
use crate::planning::Case;
use crate::timing;

/// One layout's times.
pub struct Row {
    pub rank: usize,
    pub operands: usize,
    pub original: f64,
    pub port: f64,
}

pub fn times(runs: u64) -> Vec<Row> {
    let mut found = Vec::new();
    for layout in layouts::growing() {
        let first = Case::of(&layout);
        let mut second = Case::of(&layout);
        assert_eq!(first.original(), second.port(), "another plan");
        let (original, port) = timing::best(runs, &mut || first.original(), &mut || second.port());
        found.push(Row {
            rank: layout.extents.len(),
            operands: layout.sizes.len(),
            original,
            port,
        });
    }
    found
}
