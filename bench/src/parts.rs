//! The inner parts through the C functions of crate parts: ranks, order, fusing.
//! For each rank and number of operands it takes a few seeded layouts.

use port::parts::{self, Ranks};
use port::{Flat, Strides};
use std::hint::black_box;
use std::time::Instant;
use strided_basic as original;
use tools::answer::rows;
use tools::generate::Random;
use tools::layout::{Layout, Purpose};

/// Layouts over which one short run goes.
const LAYOUTS: usize = 16;
/// Rounds of a short run over the layouts.
const ROUNDS: usize = 8;

/// A layout as each side takes it.
struct Case<'a> {
    layout: &'a Layout,
    strides: Vec<&'a [isize]>,
    flat: Flat,
}

/// The arrays that the port is lent.
struct Room {
    ranks: Ranks,
    order: [usize; 64],
    rank: [usize; 1],
    extents: [u64; 64],
    strides: Strides,
}

/// One function on both sides. Each answers a number of its result.
struct Function {
    name: &'static str,
    operands: &'static [usize],
    /// The least and the greatest extent at a rank.
    extents: fn(usize) -> (usize, usize),
    original: fn(&Case) -> usize,
    port: fn(&Case, &mut Room) -> usize,
}

const FUNCTIONS: [Function; 4] = [
    Function {
        name: "ranks",
        operands: &[1, 2, 3],
        extents: |_| (2, 9),
        original: |case| {
            let first = |strides: &&[isize]| original::with_ranks(strides, |ranks| ranks[0]);
            case.strides.iter().map(first).sum()
        },
        port: |case, room| {
            parts::ranks(&case.flat, &mut room.ranks);
            room.ranks[0][0] as usize
        },
    },
    Function {
        name: "order, ranks inside",
        operands: &[1, 2, 3],
        extents: |_| (2, 9),
        original: |case| {
            let (extents, chosen) = (&case.layout.extents, case.layout.chosen);
            original::with_order(extents, &case.strides, chosen, |order| order[0])
        },
        port: |case, room| {
            parts::order(&case.flat, &mut room.order);
            room.order[0]
        },
    },
    // no more than 1,024 cells: neither side puts the axes into loop order
    Function {
        name: "fuse and compress, as given",
        operands: &[2],
        extents: |rank| (2, [32, 32, 10, 5, 4, 3, 2, 2][rank - 1]),
        original: |case| {
            original::with_fused(&case.layout.extents, &case.strides, |extents, strides| {
                black_box(strides);
                extents[0]
            })
        },
        port: plan_axes,
    },
    // more than 1,024 cells: both do
    Function {
        name: "fuse and compress, order inside",
        operands: &[2],
        extents: |_| (33, 40),
        original: |case| {
            let (extents, chosen) = (&case.layout.extents, case.layout.chosen);
            original::with_ordered_fused(extents, &case.strides, chosen, |extents, strides| {
                black_box(strides);
                extents[0]
            })
        },
        port: plan_axes,
    },
];

/// The port's axes of a plan.
fn plan_axes(case: &Case, room: &mut Room) -> usize {
    parts::axes(
        &case.flat,
        &mut room.rank,
        &mut room.extents,
        &mut room.strides,
    );
    room.rank[0]
}

/// A dense layout: each operand has its axes in an order of its own.
fn dense(random: &mut Random, rank: usize, operands: usize, within: (usize, usize)) -> Layout {
    let (least, most) = within;
    let extents: Vec<usize> = (0..rank).map(|_| random.within(least, most)).collect();
    let row = |_| {
        let mut axes: Vec<usize> = (0..rank).collect();
        for last in (1..rank).rev() {
            axes.swap(last, random.within(0, last));
        }
        let (mut row, mut next) = (vec![0; rank], 1);
        for axis in axes {
            row[axis] = next;
            next *= extents[axis] as isize;
        }
        row
    };
    let strides: Vec<Vec<isize>> = (0..operands).map(row).collect();
    Layout {
        purpose: Purpose::Pointwise,
        chosen: Some(0),
        extents,
        sizes: vec![8; operands],
        strides,
    }
}

/// Nanoseconds of one call, over one short run.
fn time(cases: &[Case], mut function: impl FnMut(&Case) -> usize) -> f64 {
    let start = Instant::now();
    for _ in 0..ROUNDS {
        for case in cases {
            black_box(function(black_box(case)));
        }
    }
    start.elapsed().as_nanos() as f64 / (ROUNDS * cases.len()) as f64
}

/// The best times of both sides, the runs in turn.
fn best(cases: &[Case], function: &Function, runs: u64) -> (f64, f64) {
    let mut room = Room {
        ranks: [[0; 64]; 8],
        order: [0; 64],
        rank: [0],
        extents: [0; 64],
        strides: [0; 512],
    };
    let (mut original, mut port) = (f64::INFINITY, f64::INFINITY);
    for _ in 0..runs {
        original = original.min(time(cases, function.original));
        port = port.min(time(cases, |case| (function.port)(case, &mut room)));
    }
    (original, port)
}

/// A function's times at a rank and a number of operands.
pub struct Row {
    pub name: &'static str,
    pub rank: usize,
    pub operands: usize,
    pub original: f64,
    pub port: f64,
}

pub fn times(seed: u64, runs: u64) -> Vec<Row> {
    let mut found = Vec::new();
    for function in &FUNCTIONS {
        for rank in [2, 4, 6, 8] {
            for &operands in function.operands {
                let mut random = Random::new(seed);
                let layouts: Vec<Layout> = (0..LAYOUTS)
                    .map(|_| dense(&mut random, rank, operands, (function.extents)(rank)))
                    .collect();
                let case = |layout| Case {
                    layout,
                    strides: rows(&layout.strides),
                    flat: Flat::of(layout),
                };
                let cases: Vec<Case> = layouts.iter().map(case).collect();
                let (original, port) = best(&cases, function, runs);
                found.push(Row {
                    name: function.name,
                    rank,
                    operands,
                    original,
                    port,
                });
            }
        }
    }
    found
}
