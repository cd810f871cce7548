//! The layouts whose planning and walking are timed.

use tools::layout::{Layout, Purpose};

/// A layout with a name for the table.
pub struct Named {
    pub name: String,
    pub layout: Layout,
}

/// The strides of a dense array whose axes lie in this order, the quickest first.
fn dense(extents: &[usize], order: &[usize]) -> Vec<isize> {
    let (mut row, mut next) = (vec![0; extents.len()], 1);
    for &axis in order {
        row[axis] = next;
        next *= extents[axis] as isize;
    }
    row
}

/// A copy of numbers of 8 bytes into operand 0, each operand dense with its axes
/// in an order of its own.
fn copy(name: &str, extents: &[usize], orders: &[Vec<usize>]) -> Named {
    let strides = orders.iter().map(|order| dense(extents, order)).collect();
    named(name, extents.to_vec(), strides)
}

fn named(name: &str, extents: Vec<usize>, strides: Vec<Vec<isize>>) -> Named {
    let layout = Layout {
        purpose: Purpose::Pointwise,
        chosen: Some(0),
        extents,
        sizes: vec![8; strides.len()],
        strides,
    };
    Named {
        name: name.to_string(),
        layout,
    }
}

fn up(rank: usize) -> Vec<usize> {
    (0..rank).collect()
}

fn down(rank: usize) -> Vec<usize> {
    (0..rank).rev().collect()
}

/// Axes turned by some places.
fn turned(rank: usize, by: usize) -> Vec<usize> {
    (0..rank).map(|axis| (axis * 5 + by) % rank).collect()
}

/// 64 axes, 40 of them with two cells.
fn wide(operands: usize) -> Named {
    let extents: Vec<usize> = (0..64).map(|axis| 1 + usize::from(axis % 8 < 5)).collect();
    let order = |k: usize| match k % 2 {
        0 => turned(64, k),
        _ => down(64),
    };
    let orders: Vec<Vec<usize>> = (0..operands).map(order).collect();
    copy(&format!("rank 64, {operands} operands"), &extents, &orders)
}

/// The layouts for planning, all as copies into operand 0.
pub fn planning() -> Vec<Named> {
    let mut all = vec![
        copy("10 x 10", &[10, 10], &[up(2), down(2)]),
        copy("contiguous 1,000,000", &[1_000_000], &[up(1), up(1)]),
        copy("contiguous 100 x 100 x 100", &[100; 3], &[up(3), up(3)]),
    ];
    for side in [64, 256, 1000, 1024, 4096] {
        let name = format!("transpose {side}");
        all.push(copy(&name, &[side, side], &[up(2), down(2)]));
    }
    all.push(copy("reversal of 128^3", &[128; 3], &[up(3), down(3)]));
    all.push(copy(
        "rotation of 100^3",
        &[100; 3],
        &[up(3), vec![2, 0, 1]],
    ));
    all.push(copy("rank 6", &[9; 6], &[up(6), vec![3, 5, 1, 0, 4, 2]]));
    all.push(copy("rank 9", &[5; 9], &[up(9), turned(9, 4)]));
    all.push(wide(2));
    all.push(wide(8));
    // No operand moves along the last axis, which is passed over.
    for extent in [16_384, 1_048_576] {
        let name = format!("broadcast of 2 x 600 x {extent}");
        all.push(named(&name, vec![2, 600, extent], vec![vec![1, 1000, 0]]));
    }
    let rows = vec![vec![1, 1000, 0], vec![0, 1, 0]];
    all.push(named(
        "broadcast of 2 x 600 x 1000, 2 operands",
        vec![2, 600, 1000],
        rows,
    ));
    // Only an operand of size 0 moves there: cutting it shrinks no region.
    let rows = vec![vec![1, 1000, 0], vec![0, 0, 1]];
    let mut alone = named("size 0 alone along 16384", vec![2, 600, 16_384], rows);
    alone.layout.sizes[1] = 0;
    all.push(alone);
    all
}

/// The layouts for index finding and single steps: ranks 2, 9 and 64, with 2 and
/// with 8 operands, dense and every other one with its axes in another order.
pub fn finding() -> Vec<Named> {
    let mut all = Vec::new();
    for operands in [2, 8] {
        let copies = |name: &str, extents: &[usize], other: Vec<usize>| {
            let rank = extents.len();
            let order = |k: usize| if k % 2 == 0 { up(rank) } else { other.clone() };
            let orders: Vec<Vec<usize>> = (0..operands).map(order).collect();
            copy(name, extents, &orders)
        };
        all.push(copies("10 x 10", &[10, 10], down(2)));
        all.push(copies("transpose 64", &[64, 64], down(2)));
        all.push(copies("rank 9", &[5; 9], turned(9, 4)));
        let wide = wide(operands);
        all.push(Named {
            name: "rank 64".to_string(),
            ..wide
        });
    }
    all
}

/// The layouts whose last operand joins a session and leaves: ranks 2 to 64, with
/// 2, 3 and 8 operands, every other one with its axes in another order.
pub fn sessions() -> Vec<Named> {
    let mut all = Vec::new();
    for operands in [2, 3, 8] {
        let copies = |name: &str, extents: &[usize], other: Vec<usize>| {
            let rank = extents.len();
            let order = |k: usize| if k % 2 == 0 { up(rank) } else { other.clone() };
            let orders: Vec<Vec<usize>> = (0..operands).map(order).collect();
            copy(name, extents, &orders)
        };
        all.push(copies("10 x 10", &[10, 10], down(2)));
        all.push(copies("transpose 1000", &[1000, 1000], down(2)));
        all.push(copies("rank 4", &[16; 4], vec![2, 0, 3, 1]));
        all.push(copies("rank 8", &[6; 8], turned(8, 3)));
        all.push(copies("rank 9", &[5; 9], turned(9, 4)));
        all.push(copies("rank 16", &[3; 16], turned(16, 3)));
        all.push(copies("rank 32", &[2; 32], turned(32, 3)));
        let wide = wide(operands);
        all.push(Named {
            name: "rank 64".to_string(),
            ..wide
        });
    }
    all
}

/// Layouts for how planning grows: some 2^40 cells in ranks 2 to 64, at most 40 of
/// the axes longer than 1, with 1 to 8 operands, every other one with its axes in
/// another order.
pub fn growing() -> Vec<Layout> {
    let mut all = Vec::new();
    for operands in [1, 2, 4, 8] {
        for rank in [2, 3, 4, 6, 8, 12, 16, 24, 32, 48, 64] {
            let longer = rank.min(40);
            let extent = 2f64.powf(40.0 / longer as f64).round() as usize;
            let starts = |axis: usize| axis * longer / rank;
            let extents: Vec<usize> = (0..rank)
                .map(|axis| {
                    if starts(axis + 1) > starts(axis) {
                        extent
                    } else {
                        1
                    }
                })
                .collect();
            let order = |k: usize| {
                if k % 2 == 0 {
                    up(rank)
                } else {
                    turned(rank, rank / 2)
                }
            };
            let orders: Vec<Vec<usize>> = (0..operands).map(order).collect();
            all.push(copy("", &extents, &orders).layout);
        }
    }
    all
}

/// The layout as a sum ordered by operand 0.
pub fn fold(layout: &Layout) -> Layout {
    Layout {
        purpose: Purpose::Fold,
        ..layout.clone()
    }
}

/// Layouts of two operands for walking, and how many cells a row has.
pub fn walking() -> Vec<Named> {
    vec![
        copy("rank 1", &[65_536], &[up(1), up(1)]),
        copy("rank 2", &[256, 256], &[up(2), down(2)]),
        copy("rank 3", &[64, 32, 32], &[up(3), down(3)]),
        copy("rank 4", &[16, 16, 16, 16], &[up(4), vec![2, 0, 3, 1]]),
        copy("rank 9", &[4; 9], &[up(9), turned(9, 4)]),
    ]
}
