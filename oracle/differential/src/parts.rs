//! The inner parts: refusals, ranks, weights, loop order, fused extents, the
//! plan's axes and their costs.

use crate::compare::{caught, same, same_array, Task};
use crate::values::{padded, table, HELD};
use port::parts::{self, Ranks};
use port::{Flat, Strides};
use std::fmt::Write as _;
use strided_basic as original;
use tools::answer::{lead_first, rows, Axes};
use tools::branches::order_by_extent;
use tools::generate::{any_stride, Random};
use tools::layout::Layout;

/// One layout of so many is also handed over with a wrong number of strides.
const WRONG_COUNTS: u64 = 16;
/// One layout of so many is also compared with strides of any size.
const ANY_STRIDES: u64 = 4;

/// What the port writes, or what it has to write.
#[derive(PartialEq, Eq)]
struct Parts {
    ranks: Ranks,
    weights: [u64; 64],
    order: [usize; 64],
}

impl Parts {
    /// Arrays before a call, and after one that is refused.
    fn held() -> Parts {
        Parts {
            ranks: [[HELD as u8; 64]; 8],
            weights: [HELD; 64],
            order: [HELD as usize; 64],
        }
    }

    /// The original's parts, with 0 behind the counts.
    fn of(layout: &Layout) -> Parts {
        let mut parts = Parts {
            ranks: [[0; 64]; 8],
            weights: [0; 64],
            order: [0; 64],
        };
        let given = rows(&layout.strides);
        for (row, strides) in parts.ranks.iter_mut().zip(&given) {
            for (place, rank) in row.iter_mut().zip(original::index_order(strides)) {
                *place = u8::try_from(rank).expect("a rank is at most 64");
            }
        }
        let weights = original::compute_importance(&layout.extents, &lead_first(layout));
        parts.weights[..weights.len()].copy_from_slice(&weights);
        let order = original::compute_order(&layout.extents, &given, layout.chosen);
        parts.order[..order.len()].copy_from_slice(&order);
        parts
    }
}

/// The axes of a plan: what the port writes, or what it has to write.
#[derive(PartialEq, Eq)]
struct Fused {
    fused: [u64; 64],
    rank: [usize; 1],
    extents: [u64; 64],
    strides: Strides,
    costs: [u64; 64],
}

impl Fused {
    /// Arrays before a call, and after one that is refused.
    fn held() -> Fused {
        Fused {
            fused: [HELD; 64],
            rank: [HELD as usize],
            extents: [HELD; 64],
            strides: [HELD as i64; 512],
            costs: [HELD; 64],
        }
    }

    /// The original's axes, with 0 behind the counts.
    fn of(layout: &Layout) -> Fused {
        let axes = Axes::of(layout);
        let costs = original::compute_costs(&rows(&axes.strides));
        Fused {
            rank: [axes.extents.len()],
            strides: table(&axes.strides),
            fused: padded(axes.fused),
            extents: padded(axes.extents),
            costs: padded(costs.iter().map(|&cost| cost as usize)),
        }
    }
}

/// Compares the three parts of a layout that is refused with this number, or
/// not if it is 0.
fn same_parts(flat: &Flat, number: u64, expected: &Parts) -> Result<(), String> {
    let mut found = Parts::held();
    let refusal = parts::ranks(flat, &mut found.ranks);
    same("refusal of ranks", refusal, number)?;
    let refusal = parts::weights(flat, &mut found.weights);
    same("refusal of weights", refusal, number)?;
    let refusal = parts::order(flat, &mut found.order);
    same("refusal of order", refusal, number)?;
    for (operand, (row, expected)) in found.ranks.iter().zip(&expected.ranks).enumerate() {
        same_array(&format!("ranks of operand {operand}"), row, expected)?;
    }
    same_array("weights", &found.weights, &expected.weights)?;
    same_array("order", &found.order, &expected.order)
}

/// Compares the axes of a layout's plan, as `same_parts` does.
fn same_axes(flat: &Flat, number: u64, expected: &Fused) -> Result<(), String> {
    let mut found = Fused::held();
    let refusal = parts::fused(flat, &mut found.fused);
    same("refusal of fused", refusal, number)?;
    let (rank, extents, strides) = (&mut found.rank, &mut found.extents, &mut found.strides);
    let refusal = parts::axes(flat, rank, extents, strides);
    same("refusal of axes", refusal, number)?;
    let refusal = parts::costs(flat, &mut found.costs);
    same("refusal of costs", refusal, number)?;
    same_array("fused", &found.fused, &expected.fused)?;
    same("plan rank", found.rank, expected.rank)?;
    same_array("plan extents", &found.extents, &expected.extents)?;
    same_array("plan strides", &found.strides, &expected.strides)?;
    same_array("costs", &found.costs, &expected.costs)
}

/// Compares a layout. The parts are there also if row 5 or 6 refuses, but the original's axes rest on the total, which row 5 keeps.
fn compare_layout(layout: &Layout) -> Result<(), String> {
    let flat = Flat::of(layout);
    let number = u64::from(layout.refusal().unwrap_or(0));
    same("refusal", parts::check(&flat), number)?;
    if (1..=4).contains(&number) {
        return all_held(&flat, number);
    }
    same_parts(&flat, 0, &caught(|| Parts::of(layout))?)?;
    if number == 5 {
        return Ok(());
    }
    same_axes(&flat, 0, &caught(|| Fused::of(layout))?)
}

/// Every function refuses with this number, and the lent arrays are as before.
fn all_held(flat: &Flat, number: u64) -> Result<(), String> {
    same_parts(flat, number, &Parts::held())?;
    same_axes(flat, number, &Fused::held())
}

/// A layout with a stride too many or too few, and what refuses it: row 3, if
/// not row 1 or 2.
pub fn with_wrong_count(layout: &Layout, more: bool) -> (Flat, u32) {
    let mut flat = Flat::of(layout);
    if more || flat.strides.is_empty() {
        flat.strides.push(1);
    } else {
        flat.strides.pop();
    }
    (flat, layout.refusal().unwrap_or(3).min(3))
}

fn compare_wrong_count(layout: &Layout, more: bool) -> Result<(), String> {
    let (flat, number) = with_wrong_count(layout, more);
    let number = u64::from(number);
    let told = |error| format!("with {} strides, {error}", flat.strides.len());
    same("refusal", parts::check(&flat), number).map_err(told)?;
    all_held(&flat, number).map_err(told)
}

/// The layout with some strides replaced by any numbers, often extreme ones. Few
/// such layouts pass row 6, but their parts are there.
fn with_any_strides(layout: &Layout, random: &mut Random) -> Layout {
    let mut layout = layout.clone();
    let part = random.within(1, 4);
    for stride in layout.strides.iter_mut().flatten() {
        if random.chance(part, 4) {
            *stride = any_stride(random);
        }
    }
    layout
}

/// Compares the layouts of each kind and tells how many, and on how many of them
/// the unchanged Rust has another loop order.
pub fn compare(task: &Task, report: &mut String) -> Result<(), String> {
    let mut others = 0;
    for &(name, kind) in &task.kinds {
        let (mut refused, mut wide, mut any, mut wrong, mut other) = (0, 0, 0, 0, 0);
        task.layouts(kind, |turn, layout, random| {
            compare_layout(layout)?;
            if turn % ANY_STRIDES == 0 {
                let changed = with_any_strides(layout, random);
                compare_layout(&changed).map_err(|error| format!("{error}\n{changed}from"))?;
                any += 1;
            }
            if turn % WRONG_COUNTS == 0 {
                compare_wrong_count(layout, turn % (2 * WRONG_COUNTS) == 0)?;
                wrong += 1;
            }
            refused += u64::from(layout.refusal().is_some());
            wide += u64::from(layout.extents.len() >= 60);
            let ordered = !layout.refusal().is_some_and(|row| row < 5);
            other += u64::from(ordered && caught(|| order_by_extent(layout))?);
            Ok(())
        })?;
        let count = task.count;
        writeln!(
            report,
            "{count:10}  {name}; {refused} refused, {wide} of rank 60 up; \
             {any} with any strides, {wrong} with a wrong count of them; \
             {other} in another loop order than the unchanged Rust's"
        )
        .expect("a String takes all");
        others += other;
    }
    if task.whole && others == 0 {
        return Err("parts: the same, but every loop order is the unchanged Rust's".to_string());
    }
    Ok(())
}
