//! Walks: begin, the three steps and step_many against
//! for_each_inner_block_preordered. The plans that are walked are planned ones, with
//! their own blocks and with others, and plans made by hand: layouts taken as they
//! are, and drawn ones of every low rank.

use crate::compare::{caught, same, same_array, Counts, Task};
use crate::draws::walks;
use crate::limits::{walk_limits, WALK_LIMITS};
use crate::states::{compare_states, next, widths, STATES};
use crate::values::{held_block, held_state, plan_of, starts_of, state_of};
use crate::values::{padded, padded_strides, same_block, same_state, step, HELD};
use port::gougelily::{self, Block, Plan, State};
use strided_basic as original;
use tools::generate::Random;
use tools::layout::Walk;

/// Walks are made of one layout of so many.
const LAYOUTS: u64 = 4;
/// Calls of many steps over the blocks of a walk.
const CALLS: usize = 8;
/// Most turns of the original over tiles without a block.
const TURNS: u64 = 1000;

/// What is counted, beside the sorts of states.
const COUNTED: [&str; 49] = [
    "walks",
    "walks to the end",
    "walks left before their end",
    "walks without a block: zero extent",
    "blocks",
    "many steps: along an axis in a tile",
    "many steps: along axis 0 from tile to tile",
    "many steps: along another axis from tile to tile",
    "many steps: to a shorter tile",
    "many steps: elsewhere",
    "walks of rank 0",
    "walks of rank 1",
    "walks of rank 2",
    "walks of rank 3",
    "walks of rank 4",
    "walks of rank 5",
    "walks of rank 6",
    "walks of rank 7",
    "walks of rank 8",
    "walks of rank 9",
    "walks of rank 10",
    "walks of rank 11",
    "walks of rank 12",
    "walks of rank 13 to 63",
    "walks of rank 64",
    "plans of the port, their own blocks",
    "plans of the port, other blocks",
    "layouts as they are",
    "drawn plans",
    "blocks of 0",
    "blocks of 1",
    "blocks of 2",
    "blocks of extent - 1",
    "blocks of extent",
    "blocks of extent + 1",
    "blocks of 2^64 - 1",
    "blocks mixed by axis",
    "starts of 0",
    "any starts",
    "starts at the least",
    "starts at the greatest",
    "starts one past the least",
    "starts one past the greatest",
    "begin refused by row 1",
    "begin refused by row 2",
    "begin refused by row 5",
    "begin refused by row 6",
    "begin refused by row 8",
    "begin refused by row 9",
];

fn refusal_name(row: u32) -> &'static str {
    match row {
        1 => "begin refused by row 1",
        2 => "begin refused by row 2",
        5 => "begin refused by row 5",
        6 => "begin refused by row 6",
        8 => "begin refused by row 8",
        9 => "begin refused by row 9",
        _ => unreachable!("row {row} refuses no beginning"),
    }
}

/// A block of the original.
struct Found {
    offsets: Vec<isize>,
    length: usize,
    strides: Vec<isize>,
    /// None on an axis longer than 2^63.
    counters: Vec<Option<usize>>,
}

/// The original's blocks, at most so many, and whether they are all. An operand
/// more for each axis, which moves along that axis alone and by 1, tells the
/// counters.
fn original_blocks(walk: &Walk, most: usize) -> Result<(Vec<Found>, bool), String> {
    let (rank, operands) = (walk.extents.len(), walk.strides.len());
    let mut strides = walk.strides.clone();
    let mut starts = walk.starts.clone();
    let counted = |axis: &usize| walk.extents[*axis] <= 1 << 63;
    let told: Vec<usize> = (0..rank).filter(counted).collect();
    for &axis in &told {
        let mut row = vec![0; rank];
        row[axis] = 1;
        strides.push(row);
        starts.push(0);
    }
    let mut found = Vec::new();
    let block = |offsets: &[isize], length: usize, inner: &[isize]| {
        if found.len() == most {
            return Err(original::StridedError::StrideLengthMismatch);
        }
        let mut counters = vec![None; rank];
        for (&axis, &counter) in told.iter().zip(&offsets[operands..]) {
            counters[axis] = Some(counter as usize);
        }
        found.push(Found {
            offsets: offsets[..operands].to_vec(),
            length,
            strides: inner.iter().take(operands).copied().collect(),
            counters,
        });
        Ok(())
    };
    let (extents, blocks) = (&walk.extents, &walk.blocks);
    let run =
        || original::for_each_inner_block_preordered(extents, blocks, &strides, &starts, block);
    let ended = caught(run)?.is_ok();
    Ok((found, ended))
}

/// At a zero extent the original hands out nothing, if it comes back.
fn original_hands_nothing(walk: &Walk) -> Result<(), String> {
    if walk.spins(TURNS) {
        return Ok(());
    }
    match original_blocks(walk, 0) {
        Ok((found, ended)) => same("blocks", (found.len(), ended), (0, true)),
        // Its offsets leave 64 bits: docs/DIFFERENCES.md.
        Err(_) => Ok(()),
    }
}

/// Steps over the original's blocks. The model of the walk, which the states are
/// compared with, is compared with them too. It answers where the model stands
/// then: at counters, or at the end.
fn compare_blocks(
    walk: &Walk,
    plan: &Plan,
    state: &mut State,
    blocks: &[Found],
) -> Result<Option<Vec<usize>>, String> {
    let widths = widths(walk);
    let mut counters = Some(vec![0; walk.extents.len()]);
    for (number, found) in blocks.iter().enumerate() {
        let at = |error| format!("block {number}, {error}");
        let here = counters.ok_or_else(|| at("the model has ended".to_string()))?;
        for (axis, told) in found.counters.iter().enumerate() {
            let told = told.unwrap_or(here[axis]);
            same("the model's counter", here[axis], told).map_err(at)?;
        }
        let expected = Block {
            counters: padded(here.iter().copied()),
            length: [found.length as u64],
            offsets: padded_strides(found.offsets.iter().copied()),
            strides: padded_strides(found.strides.iter().copied()),
        };
        let mut block = held_block();
        let code = step(plan, state, &mut block).map_err(at)?;
        same("code of step", code, 1).map_err(at)?;
        same_block(&block, &expected).map_err(at)?;
        let told = state_of(walk, Some(&here)).offsets;
        same_array("offsets told by the counters", &told, &block.offsets).map_err(at)?;
        counters = next(&walk.extents, &widths, &here);
        same_state(state, &state_of(walk, counters.as_deref())).map_err(at)?;
    }
    Ok(counters)
}

/// How many steps get from a block to the next one: along the axis that stretches go,
/// the quickest that moves inside a tile, or else that has a second tile; or by a carry.
fn way(
    extents: &[usize],
    widths: &[usize],
    here: &[usize],
    next: Option<&[usize]>,
) -> &'static str {
    let inside = (1..here.len()).find(|&axis| widths[axis] != 1);
    let tiled = || (0..here.len()).find(|&axis| widths[axis] < extents[axis]);
    let (Some(axis), Some(next)) = (inside.or_else(tiled), next) else {
        return "many steps: elsewhere";
    };
    let others_stay = (0..here.len()).all(|other| other == axis || next[other] == here[other]);
    let same_tile = here[axis] / widths[axis] == next[axis] / widths[axis];
    if !others_stay || next[axis] <= here[axis] || (inside.is_some() && !same_tile) {
        return "many steps: elsewhere";
    }
    match axis {
        _ if inside.is_some() => "many steps: along an axis in a tile",
        _ if extents[axis] - next[axis] < widths[axis] => "many steps: to a shorter tile",
        0 => "many steps: along axis 0 from tile to tile",
        _ => "many steps: along another axis from tile to tile",
    }
}

/// Many steps in one call over the original's blocks, with any room. `ended` says
/// whether the blocks are all.
fn compare_many(
    walk: &Walk,
    plan: &Plan,
    blocks: &[Found],
    ended: bool,
    random: &mut Random,
    met: &mut Counts,
) -> Result<(), String> {
    let (widths, operands) = (widths(walk), walk.strides.len());
    let mut counters = Some(vec![0; walk.extents.len()]);
    let mut state = state_of(walk, counters.as_deref());
    let mut left = blocks;
    for _ in 0..CALLS {
        // At times a slice has places for more than the other, or for part of a block.
        let room = random.pick(&[0, 1, 2, 7, 64, 300]);
        let mut lengths = vec![HELD; room + random.pick(&[0, 0, 1, 5])];
        let mut offsets = vec![HELD as i64; room * operands + random.within(0, 2 * operands)];
        let room = lengths.len().min(offsets.len() / operands);
        if room > left.len() && !ended {
            continue;
        }
        let (now, rest) = left.split_at(room.min(left.len()));
        let at = |error| {
            let done = blocks.len() - left.len();
            format!("blocks {done} up, room for {room}, {error}")
        };
        let mut expected = (lengths.clone(), offsets.clone());
        for (block, found) in now.iter().enumerate() {
            expected.0[block] = found.length as u64;
            for (operand, &offset) in found.offsets.iter().enumerate() {
                expected.1[block * operands + operand] = offset as i64;
            }
            let here = counters.ok_or_else(|| at("the model has ended".to_string()))?;
            counters = next(&walk.extents, &widths, &here);
            met.add(way(&walk.extents, &widths, &here, counters.as_deref()));
        }
        let code = gougelily::step_many(plan, &mut state, &mut lengths, &mut offsets);
        same("code of step_many", code, now.len() as i64).map_err(at)?;
        same_array("lengths", &lengths, &expected.0).map_err(at)?;
        same_array("offsets", &offsets, &expected.1).map_err(at)?;
        same_state(&state, &state_of(walk, counters.as_deref())).map_err(at)?;
        left = rest;
    }
    Ok(())
}

/// A step after the last block answers "ended" again and changes nothing.
fn compare_end(walk: &Walk, plan: &Plan, state: &mut State) -> Result<(), String> {
    let at = |error| format!("at the end, {error}");
    let (mut lengths, mut offsets) = ([HELD; 3], [HELD as i64; 24]);
    let code = gougelily::step_many(plan, state, &mut lengths, &mut offsets);
    same("code of step_many", code, 0).map_err(at)?;
    same_state(state, &state_of(walk, None)).map_err(at)?;
    same_array("lengths", &lengths, &[HELD; 3]).map_err(at)?;
    same_array("offsets", &offsets, &[HELD as i64; 24]).map_err(at)?;
    for _ in 0..2 {
        let mut block = held_block();
        let code = step(plan, state, &mut block).map_err(at)?;
        same("code of step", code, 0).map_err(at)?;
        same_state(state, &state_of(walk, None)).map_err(at)?;
        same_block(&block, &held_block()).map_err(at)?;
    }
    Ok(())
}

/// Compares a walk from its beginning to its end, or to so many blocks.
fn compare_walk(
    walk: &Walk,
    behind: u64,
    most: usize,
    random: &mut Random,
    met: &mut Counts,
) -> Result<(), String> {
    for name in walk_limits(walk) {
        met.add(name);
    }
    let plan = plan_of(walk, behind);
    let mut state = held_state();
    let code = gougelily::begin(&plan, &starts_of(walk), &mut state);
    if let Some(row) = walk.refusal() {
        met.add(refusal_name(row));
        same("code of begin", code, -i64::from(row))?;
        return same_state(&state, &held_state());
    }
    same("code of begin", code, 0)?;
    met.add("walks");
    met.add(&match walk.extents.len() {
        rank @ (0..=12 | 64) => format!("walks of rank {rank}"),
        _ => "walks of rank 13 to 63".to_string(),
    });
    if walk.extents.contains(&0) {
        met.add("walks without a block: zero extent");
        same_state(&state, &state_of(walk, None))?;
        original_hands_nothing(walk)?;
        return compare_end(walk, &plan, &mut state);
    }
    same_state(&state, &state_of(walk, Some(&vec![0; walk.extents.len()])))?;
    let (blocks, ended) = original_blocks(walk, most)?;
    let counters = compare_blocks(walk, &plan, &mut state, &blocks)?;
    met.add_many("blocks", blocks.len() as u64);
    same("the model has ended", counters.is_none(), ended)?;
    compare_many(walk, &plan, &blocks, ended, random, met)?;
    if !ended {
        met.add("walks left before their end");
        return Ok(());
    }
    met.add("walks to the end");
    compare_end(walk, &plan, &mut state)
}

/// Row 8: a start too many or too few. Rows 1, 2, 5 and 6 come first.
fn compare_wrong_starts(walk: &Walk, behind: u64, met: &mut Counts) -> Result<(), String> {
    let row = walk.refusal().map_or(8, |row| row.min(8));
    let plan = plan_of(walk, behind);
    let starts = starts_of(walk);
    let more = [&starts[..], &[0]].concat();
    let fewer = &starts[..starts.len().saturating_sub(1)];
    for wrong in [&more, fewer, &[]] {
        if wrong.len() != starts.len() {
            let mut state = held_state();
            let code = gougelily::begin(&plan, wrong, &mut state);
            let told = |error| format!("{} starts, {error}", wrong.len());
            same("code of begin", code, -i64::from(row)).map_err(told)?;
            same_state(&state, &held_state()).map_err(told)?;
            met.add(refusal_name(row));
        }
    }
    Ok(())
}

/// Rows 1 and 2 on a plan that is refused by no row: counts far above the limits.
fn compare_wrong_plans(walk: &Walk, behind: u64, met: &mut Counts) -> Result<(), String> {
    let far = usize::MAX;
    let counts = [
        (65, 1, 1),
        (far, far, 1),
        (65, 0, 1),
        (1, 0, 2),
        (64, 9, 2),
        (0, far, 2),
    ];
    for (rank, operands, row) in counts {
        let mut plan = plan_of(walk, behind);
        (plan.rank, plan.operands) = ([rank], [operands]);
        let told = |error| format!("rank {rank}, operands {operands}, {error}");
        let mut state = held_state();
        let code = gougelily::begin(&plan, &starts_of(walk), &mut state);
        same("code of begin", code, -i64::from(row)).map_err(told)?;
        same_state(&state, &held_state()).map_err(told)?;
        met.add(refusal_name(row));
        let mut block = held_block();
        let code = step(&plan, &mut state, &mut block).map_err(told)?;
        same("code of step", code, -i64::from(row)).map_err(told)?;
        same_state(&state, &held_state()).map_err(told)?;
        same_block(&block, &held_block()).map_err(told)?;
    }
    Ok(())
}

/// Compares walks made of the layouts of each kind.
pub fn compare(task: &Task, report: &mut String) -> Result<(), String> {
    let names = COUNTED.into_iter().chain(WALK_LIMITS);
    let mut met = Counts::of(names.chain(STATES));
    for &(_, kind) in &task.kinds {
        task.layouts(kind, |turn, layout, random| {
            if turn % LAYOUTS != 0 {
                return Ok(());
            }
            for walk in walks(layout, random, &mut met) {
                let told = |error| format!("{error}\n{walk}from");
                let behind = random.pick(&[0, HELD]);
                compare_walk(&walk, behind, task.blocks, random, &mut met).map_err(told)?;
                compare_wrong_starts(&walk, behind, &mut met).map_err(told)?;
                compare_states(&walk, behind, random, &mut met).map_err(told)?;
                if walk.refusal().is_none() {
                    compare_wrong_plans(&walk, behind, &mut met).map_err(told)?;
                }
            }
            Ok(())
        })?;
    }
    met.tell(report);
    if task.whole {
        met.require("walks", &[])?;
    }
    Ok(())
}
