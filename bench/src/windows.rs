//! Windows: the library's `gougelily_window`. The original has no counterpart.

use crate::timing;
use port::{gougelily, Flat};
use std::hint::black_box;

/// The time of a window of this rank and number of operands.
pub struct Row {
    pub rank: usize,
    pub operands: usize,
    pub nanoseconds: f64,
}

/// A packed layout, the operands all alike.
fn packed(rank: usize, operands: usize) -> Flat {
    let extent: u64 = if rank > 8 { 2 } else { 100 };
    let mut strides = Vec::new();
    for _ in 0..operands {
        let mut next = 1;
        for _ in 0..rank {
            strides.push(next);
            next *= if rank > 8 { 1 } else { extent as i64 };
        }
    }
    let mut extents = vec![extent; rank];
    // a total of 2^64 would be refused
    if rank == 64 {
        extents[63] = 1;
    }
    Flat {
        extents,
        sizes: vec![8; operands],
        strides,
        kind: 0,
        chosen: 0,
    }
}

/// Every axis backwards.
fn time(rank: usize, operands: usize, runs: u64) -> f64 {
    let layout = packed(rank, operands);
    let firsts: Vec<u64> = layout.extents.iter().map(|extent| extent - 1).collect();
    let steps = vec![-1; rank];
    let mut made = gougelily::Windowed {
        extents: [0; 64],
        strides: [0; 512],
        shifts: [0; 8],
    };
    let mut call = || {
        let layout = black_box(&layout);
        let answer = gougelily::window(layout, &firsts, &layout.extents, &steps, &mut made);
        assert_eq!(answer, 0, "the windows are served");
        made.shifts[0] as usize
    };
    timing::alone(runs, &mut call)
}

pub fn times(runs: u64) -> Vec<Row> {
    let shapes = [(1, 1), (2, 2), (3, 2), (6, 2), (64, 2), (64, 8)];
    let row = |(rank, operands)| Row {
        rank,
        operands,
        nanoseconds: time(rank, operands, runs),
    };
    shapes.into_iter().map(row).collect()
}
