//! Index finding: plan_index against the order and the fused extents of the
//! original, original_index as its reverse, and both on the places of walks. The
//! offset of every cell is the same on both sides.

use crate::compare::{caught, same, same_array, Counts, Task};
use crate::draws::draw_blocks;
use crate::parts::with_wrong_count;
use crate::plans::{for_each_purpose, handed};
use crate::states::middle;
use crate::values::{distance, held_block, held_state, padded, plan_of, planned};
use crate::values::{starts_of, state_of, HELD};
use port::gougelily::{self, Told};
use port::Flat;
use std::collections::BTreeSet;
use strided_basic as original;
use tools::answer::{rows, Axes};
use tools::generate::Random;
use tools::layout::{Layout, Walk};

/// Indices are found in one layout of so many.
const LAYOUTS: u64 = 4;
/// Every cell is looked at up to this total.
const WHOLE: usize = 256;
/// Cells that are looked at above it.
const CELLS: usize = 12;
/// One layout of so many is also handed over with a wrong number of strides.
const WRONG_COUNTS: u64 = 16;

const COUNTED: [&str; 15] = [
    "layouts with every cell",
    "layouts with some cells",
    "cells told both ways",
    "walks whose places are every index once",
    "places of whole walks",
    "places of a block in the middle",
    "refused by rows 1 to 6",
    "refused by row 3",
    "row 11: a zero extent",
    "row 11: a counter too many",
    "row 11: a counter too few",
    "row 11: a counter at its extent",
    "row 11: a place of the index too many",
    "row 11: a place of the index too few",
    "row 11: a place of the index at its extent",
];

/// What is told before a call, and after one that is refused.
fn held() -> Told {
    Told {
        count: [HELD as usize],
        index: [HELD; 64],
    }
}

fn told(index: &[usize]) -> Told {
    Told {
        count: [index.len()],
        index: padded(index.iter().copied()),
    }
}

fn numbers(index: &[usize]) -> Vec<u64> {
    index.iter().map(|&place| place as u64).collect()
}

/// Fails unless the same is told.
fn same_told(port: &Told, expected: &Told) -> Result<(), String> {
    same("count", port.count, expected.count)?;
    same_array("index", &port.index, &expected.index)
}

type Find = fn(&Flat, &[u64], &mut Told) -> i64;

/// Fails unless a function tells this index.
fn same_index(
    what: &str,
    find: Find,
    flat: &Flat,
    given: &[usize],
    expected: &[usize],
) -> Result<(), String> {
    let mut found = held();
    let code = find(flat, &numbers(given), &mut found);
    let at = |error| format!("{what} of {given:?}: {error}");
    same("code", code, 0).map_err(at)?;
    same_told(&found, &told(expected)).map_err(at)
}

/// Fails unless a function refuses with this number and tells nothing.
fn refuses(
    what: &str,
    find: Find,
    flat: &Flat,
    given: &[usize],
    number: u32,
) -> Result<(), String> {
    let mut found = held();
    let code = find(flat, &numbers(given), &mut found);
    let at = |error| format!("{what} of {given:?}: {error}");
    same("code", code, -i64::from(number)).map_err(at)?;
    same_told(&found, &held()).map_err(at)
}

/// The axes of a layout with the order in which they are fused.
struct Fused {
    axes: Axes,
    order: Vec<usize>,
}

impl Fused {
    fn of(layout: &Layout) -> Fused {
        let axes = Axes::of(layout);
        let given = rows(&layout.strides);
        let order = if axes.large() {
            original::compute_order(&layout.extents, &given, layout.chosen)
        } else {
            (0..layout.extents.len()).collect()
        };
        Fused { axes, order }
    }

    /// The plan index of an index: in mixed radix on a fused axis, quickest the
    /// axis that came first. An axis that the original left with extent 1 has
    /// joined the nearest before it that has another, or had extent 1 itself.
    fn plan_index(&self, index: &[usize]) -> Vec<usize> {
        let mut counters: Vec<usize> = Vec::new();
        let mut radix = 1;
        for (place, &axis) in self.order.iter().enumerate() {
            let extent = self.axes.ordered_extents[place];
            if self.axes.fused[place] != 1 {
                counters.push(index[axis]);
                radix = extent;
            } else if extent != 1 {
                *counters.last_mut().expect("an axis to join") += index[axis] * radix;
                radix *= extent;
            }
        }
        if counters.is_empty() && !index.is_empty() {
            counters.push(0);
        }
        counters
    }
}

/// The index at a place of the row of all indices, the first axis quickest.
fn index_at(extents: &[usize], mut place: usize) -> Vec<usize> {
    let at = |&extent: &usize| {
        let here = place % extent;
        place /= extent;
        here
    };
    extents.iter().map(at).collect()
}

/// Any index, at times a corner.
fn any_index(extents: &[usize], random: &mut Random) -> Vec<usize> {
    let corner = random.within(0, 3);
    let at = |&extent: &usize| match (corner, random.within(0, 1)) {
        (0, 0) => 0,
        (0, _) => extent - 1,
        _ => random.within(0, extent - 1),
    };
    extents.iter().map(at).collect()
}

/// Tells a cell both ways, and compares its offsets.
fn compare_cell(
    layout: &Layout,
    flat: &Flat,
    fused: &Fused,
    index: &[usize],
) -> Result<(), String> {
    let counters = fused.plan_index(index);
    let find = gougelily::plan_index;
    same_index("plan index", find, flat, index, &counters)?;
    let find = gougelily::original_index;
    same_index("original index", find, flat, &counters, index)?;
    for (given, planned) in layout.strides.iter().zip(&fused.axes.strides) {
        let offsets = (distance(index, given), distance(&counters, planned));
        same("offsets", offsets.0, offsets.1).map_err(|error| format!("{error} at {index:?}"))?;
    }
    Ok(())
}

/// The original index told at cell k of a block; its offsets are the block's plus
/// k times the strides.
fn compare_place(
    layout: &Layout,
    flat: &Flat,
    walk: &Walk,
    block: &gougelily::Block,
    k: usize,
) -> Result<Vec<usize>, String> {
    let rank = walk.extents.len();
    let mut counters = block.counters[..rank].to_vec();
    if let Some(first) = counters.first_mut() {
        *first += k as u64;
    }
    let at = |error| {
        format!(
            "cell {k} of the block at {:?}: {error}",
            &block.counters[..rank]
        )
    };
    let mut found = held();
    let code = gougelily::original_index(flat, &counters, &mut found);
    same("code", code, 0).map_err(at)?;
    same("count", found.count[0], layout.extents.len()).map_err(at)?;
    let index = &found.index[..layout.extents.len()];
    let index: Vec<usize> = index.iter().map(|&place| place as usize).collect();
    same_told(&found, &told(&index)).map_err(at)?;
    let within = index.iter().zip(&layout.extents);
    same("within", within.clone().all(|(i, e)| i < e), true).map_err(at)?;
    for (operand, row) in layout.strides.iter().enumerate() {
        let told = walk.starts[operand] as i128 + distance(&index, row);
        let way = k as i128 * block.strides[operand] as i128;
        let offset = block.offsets[operand] as i128 + way;
        same("offset", told, offset).map_err(at)?;
    }
    Ok(index)
}

/// The places of a whole walk are every index once.
fn compare_whole_walk(layout: &Layout, flat: &Flat, walk: &Walk) -> Result<usize, String> {
    let plan = plan_of(walk, 0);
    let total = layout.extents.iter().product();
    let (mut state, mut seen, mut places) = (held_state(), BTreeSet::new(), 0);
    let code = gougelily::begin(&plan, &starts_of(walk), &mut state);
    same("code of begin", code, 0)?;
    loop {
        let mut block = held_block();
        match gougelily::step(&plan, &mut state, &mut block) {
            0 => break,
            code => same("code of step", code, 1)?,
        }
        for k in 0..block.length[0] as usize {
            seen.insert(compare_place(layout, flat, walk, &block, k)?);
            places += 1;
        }
        if places > total {
            return Err(format!("more than {total} places"));
        }
    }
    same("places, indices", (places, seen.len()), (total, total))?;
    Ok(places)
}

/// A block somewhere in a walk: its first cell, its last, and one between.
fn compare_middle(
    layout: &Layout,
    flat: &Flat,
    walk: &Walk,
    random: &mut Random,
) -> Result<(), String> {
    let plan = plan_of(walk, 0);
    let mut state = state_of(walk, Some(&middle(walk, random)));
    let mut block = held_block();
    same(
        "code of step",
        gougelily::step(&plan, &mut state, &mut block),
        1,
    )?;
    let last = block.length[0] as usize - 1;
    for k in [0, random.within(0, last), last] {
        compare_place(layout, flat, walk, &block, k)?;
    }
    Ok(())
}

/// Row 11, for one of the two functions. The names are those of a place too many,
/// too few, and at its extent.
fn compare_row_11(
    (what, find): (&str, Find),
    flat: &Flat,
    extents: &[usize],
    names: [&str; 3],
    random: &mut Random,
    met: &mut Counts,
) -> Result<(), String> {
    let index = any_index(extents, random);
    let more = random.pick(&[1, 1, 64]);
    let longer = [&index[..], &vec![0; more]].concat();
    refuses(what, find, flat, &longer, 11)?;
    met.add(names[0]);
    if !index.is_empty() {
        refuses(what, find, flat, &index[..index.len() - 1], 11)?;
        refuses(what, find, flat, &[], 11)?;
        met.add(names[1]);
        let axis = random.within(0, index.len() - 1);
        for past in [extents[axis], usize::MAX] {
            let mut wrong = index.clone();
            wrong[axis] = past;
            refuses(what, find, flat, &wrong, 11)?;
        }
        met.add(names[2]);
    }
    Ok(())
}

fn compare_layout(layout: &Layout, random: &mut Random, met: &mut Counts) -> Result<(), String> {
    let flat = handed(layout, random);
    let finds: [(&str, Find); 2] = [
        ("original index", gougelily::original_index),
        ("plan index", gougelily::plan_index),
    ];
    let zeros = vec![0; layout.extents.len()];
    if let Some(row) = layout.refusal() {
        for (what, find) in finds {
            refuses(what, find, &flat, &zeros, row)?;
            refuses(what, find, &flat, &[7; 65], row)?;
        }
        met.add("refused by rows 1 to 6");
        return Ok(());
    }
    let fused = caught(|| Fused::of(layout))?;
    if layout.extents.contains(&0) {
        refuses(
            finds[0].0,
            finds[0].1,
            &flat,
            &vec![0; fused.axes.extents.len()],
            11,
        )?;
        refuses(finds[1].0, finds[1].1, &flat, &zeros, 11)?;
        met.add("row 11: a zero extent");
        return Ok(());
    }
    let total = fused.axes.total;
    let mut walk = planned(layout).ok_or("the port refuses to plan")?;
    if random.chance(1, 2) {
        walk.blocks = draw_blocks(&walk.extents, random);
    }
    let at = |error| format!("{error}\n{walk}");
    if total <= WHOLE {
        for place in 0..total {
            let index = index_at(&layout.extents, place);
            compare_cell(layout, &flat, &fused, &index)?;
        }
        met.add("layouts with every cell");
        met.add_many("cells told both ways", total as u64);
        let places = compare_whole_walk(layout, &flat, &walk).map_err(at)?;
        met.add("walks whose places are every index once");
        met.add_many("places of whole walks", places as u64);
    } else {
        for _ in 0..CELLS {
            let index = any_index(&layout.extents, random);
            compare_cell(layout, &flat, &fused, &index)?;
        }
        met.add("layouts with some cells");
        met.add_many("cells told both ways", CELLS as u64);
        compare_middle(layout, &flat, &walk, random).map_err(at)?;
        met.add_many("places of a block in the middle", 3);
    }
    let counters = [
        "row 11: a counter too many",
        "row 11: a counter too few",
        "row 11: a counter at its extent",
    ];
    compare_row_11(finds[0], &flat, &fused.axes.extents, counters, random, met)?;
    let places = [
        "row 11: a place of the index too many",
        "row 11: a place of the index too few",
        "row 11: a place of the index at its extent",
    ];
    compare_row_11(finds[1], &flat, &layout.extents, places, random, met)
}

/// Finds indices in the layouts of each kind.
pub fn compare(task: &Task, report: &mut String) -> Result<(), String> {
    let mut met = Counts::of(COUNTED);
    for &(_, kind) in &task.kinds {
        task.layouts(kind, |turn, layout, random| {
            if turn % LAYOUTS != 0 {
                return Ok(());
            }
            for layout in for_each_purpose(layout, random) {
                let told = |error| format!("{error}\n{layout}from");
                compare_layout(&layout, random, &mut met).map_err(told)?;
            }
            if turn % WRONG_COUNTS == 0 {
                let (flat, number) = with_wrong_count(layout, turn % (2 * WRONG_COUNTS) == 0);
                let index = vec![0; layout.extents.len()];
                refuses(
                    "original index",
                    gougelily::original_index,
                    &flat,
                    &index,
                    number,
                )?;
                refuses("plan index", gougelily::plan_index, &flat, &index, number)?;
                if number == 3 {
                    met.add("refused by row 3");
                }
            }
            Ok(())
        })?;
    }
    met.tell(report);
    if task.whole {
        met.require("finding", &[])?;
    }
    Ok(())
}
