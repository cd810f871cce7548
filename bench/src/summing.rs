//! Summaries: the library's `gougelily_summary` beside plain loops in Rust over
//! the same cells, in the same order and with the same updates. The loops are
//! handed the plan, which the library makes at each call. The original has no
//! counterpart.

use crate::planning::empty_plan;
use crate::timing;
use port::gougelily::{self, Plan, Summary};
use port::Flat;
use std::hint::black_box;

/// A layout's times for one cell, and that of a bare sum of as many cells.
pub struct Row {
    pub name: &'static str,
    pub cells: u64,
    pub plain: f64,
    pub port: f64,
    pub alone: f64,
}

/// One more cell.
#[inline(always)]
fn with_cell(mut summary: Summary, x: f64) -> Summary {
    summary.sum += x;
    summary.count += 1;
    if x.is_nan() {
        summary.nans += 1;
    } else if summary.extremes == 0 {
        summary.least = x;
        summary.greatest = x;
        summary.extremes = 1;
    } else {
        summary.least = if x < summary.least { x } else { summary.least };
        summary.greatest = if x > summary.greatest {
            x
        } else {
            summary.greatest
        };
    }
    summary
}

/// The axes of a plan as the loops have them: extents, blocks, strides, for four.
type Axes = [(i64, i64, i64); 4];

fn axes(plan: &Plan) -> Axes {
    assert!(plan.rank[0] <= 4, "the loops have four axes");
    let mut axes = [(1, 1, 0); 4];
    for (i, axis) in axes.iter_mut().enumerate().take(plan.rank[0]) {
        *axis = (
            plan.extents[i] as i64,
            plan.blocks[i] as i64,
            plan.strides[i],
        );
    }
    axes
}

/// Tile by tile, in a tile run by run.
fn plain(axes: &Axes, start: i64, cells: &[f64]) -> Summary {
    let mut summary = Summary::default();
    let [a, b, c, d] = *axes;
    let last = |at: i64, axis: (i64, i64, i64)| (at + axis.1).min(axis.0);
    for t3 in (0..d.0).step_by(d.1 as usize) {
        for t2 in (0..c.0).step_by(c.1 as usize) {
            for t1 in (0..b.0).step_by(b.1 as usize) {
                for t0 in (0..a.0).step_by(a.1 as usize) {
                    for i3 in t3..last(t3, d) {
                        for i2 in t2..last(t2, c) {
                            for i1 in t1..last(t1, b) {
                                let mut o = start + i3 * d.2 + i2 * c.2 + i1 * b.2 + t0 * a.2;
                                for _ in t0..last(t0, a) {
                                    summary = with_cell(summary, cells[o as usize]);
                                    o += a.2;
                                }
                            }
                        }
                    }
                }
            }
        }
    }
    summary
}

/// The cells one after the other, and nothing but their sum.
fn alone(cells: &[f64]) -> f64 {
    cells.iter().fold(0.0, |sum, x| sum + x)
}

/// The cells: without order between two bounds, each above the one before, or
/// one in ten, at random, above all before it.
enum Data {
    Level,
    Rising,
    Records,
}

fn cells_of(data: &Data, count: i64) -> Vec<f64> {
    let mut seed: u64 = 1;
    let cell = |i: i64| match data {
        Data::Level => (i * 7919 % 1000) as f64 / 7.0 - 30.0,
        Data::Rising => i as f64 / 7.0,
        Data::Records => {
            seed ^= seed << 13;
            seed ^= seed >> 7;
            seed ^= seed << 17;
            if seed % 10 == 0 {
                i as f64
            } else {
                -0.5
            }
        }
    };
    (0..count).map(cell).collect()
}

pub fn times(rounds: u64) -> Vec<Row> {
    let level: Vec<(&'static str, Vec<u64>, Vec<i64>)> = vec![
        ("1,000", vec![1000], vec![1]),
        ("100,000", vec![100_000], vec![1]),
        ("every third of 300,000", vec![100_000], vec![3]),
        ("64 x 64, transposed", vec![64, 64], vec![64, 1]),
        ("1,000 x 1,000 of 1,024", vec![1000, 1000], vec![1, 1024]),
        ("16 x 1,000 of 32", vec![16, 1000], vec![1, 32]),
        ("3 x 10,000 of 4", vec![3, 10_000], vec![1, 4]),
        (
            "10 x 10 x 10 x 10 with gaps",
            vec![10; 4],
            vec![1, 11, 121, 1331],
        ),
        (
            "200 x 200, each row again",
            vec![200, 200, 3],
            vec![1, 256, 0],
        ),
    ];
    let mut layouts: Vec<_> = level
        .into_iter()
        .map(|(name, extents, strides)| (name, extents, strides, Data::Level))
        .collect();
    layouts.push(("100,000, rising", vec![100_000], vec![1], Data::Rising));
    layouts.push((
        "100,000, one in ten above all before",
        vec![100_000],
        vec![1],
        Data::Records,
    ));
    layouts.push((
        "3 x 10,000 of 4, rising",
        vec![3, 10_000],
        vec![1, 4],
        Data::Rising,
    ));
    let mut found = Vec::new();
    for (name, extents, strides, data) in layouts {
        let reach: i64 = extents
            .iter()
            .zip(&strides)
            .map(|(e, s)| (*e as i64 - 1) * s)
            .sum();
        let cells = cells_of(&data, reach + 1);
        let layout = Flat {
            extents: extents.clone(),
            sizes: vec![8],
            strides: strides.clone(),
            kind: 2,
            chosen: 0,
        };
        let mut plan = empty_plan();
        assert_eq!(gougelily::plan(&layout, &mut plan), 0);
        let axes = axes(&plan);
        let mut told = Summary::default();
        assert_eq!(
            gougelily::summary(&extents, &strides, 0, &cells, &mut told),
            0
        );
        assert_eq!(
            told,
            plain(&axes, 0, &cells),
            "{name}: the summaries differ"
        );
        let count = told.count;
        let mut loops = || plain(black_box(&axes), 0, black_box(&cells)).count as usize;
        let mut port = || {
            gougelily::summary(&extents, &strides, 0, black_box(&cells), &mut told);
            told.count as usize
        };
        let (plain, port) = timing::best(rounds, &mut loops, &mut port);
        let mut bare = || alone(black_box(&cells)) as usize;
        let bare = timing::alone(rounds, &mut bare);
        found.push(Row {
            name,
            cells: count,
            plain: plain / count as f64,
            port: port / count as f64,
            alone: bare / cells.len() as f64,
        });
    }
    found
}
