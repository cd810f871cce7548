//! The values that the port takes and hands out: before a call, and as the
//! original's values have to be written.

use crate::compare::{same, same_array};
use port::gougelily::{self, Block, Plan, State};
use port::{parts, Flat, Strides};
use strided_basic as original;
use tools::layout::{Layout, Walk};

/// What lent arrays hold before a call, and after one that is refused.
pub const HELD: u64 = 0xa5a5_a5a5_a5a5_a5a5;

/// A list as an array, with 0 behind it.
pub fn padded<const N: usize>(list: impl IntoIterator<Item = usize>) -> [u64; N] {
    let mut array = [0; N];
    let mut list = list.into_iter();
    for (place, number) in array.iter_mut().zip(&mut list) {
        *place = number as u64;
    }
    assert!(list.next().is_none(), "more than {N}");
    array
}

/// Strides as an array, with 0 behind them.
pub fn padded_strides<const N: usize>(list: impl IntoIterator<Item = isize>) -> [i64; N] {
    padded::<N>(list.into_iter().map(|stride| stride as usize)).map(|stride| stride as i64)
}

/// The strides of a plan's axes as the port has them.
pub fn table(strides: &[Vec<isize>]) -> Strides {
    let mut table = [0; 512];
    for (row, strides) in table.chunks_mut(64).zip(strides) {
        let filled: [i64; 64] = padded_strides(strides.iter().copied());
        row.copy_from_slice(&filled);
    }
    table
}

/// A plan before a call, and after one that is refused.
pub fn held_plan() -> Plan {
    Plan {
        rank: [HELD as usize],
        operands: [HELD as usize],
        extents: [HELD; 64],
        blocks: [HELD; 64],
        strides: [HELD as i64; 512],
    }
}

/// The original's plan as the port has to write it, with 0 behind the counts.
pub fn original_plan(plan: &original::Plan) -> Plan {
    Plan {
        rank: [plan.extents.len()],
        operands: [plan.strides.len()],
        extents: padded(plan.extents.iter().copied()),
        blocks: padded(plan.blocks.iter().copied()),
        strides: table(&plan.strides),
    }
}

/// The plan of a layout, as the port plans it.
pub fn planned(layout: &Layout) -> Option<Walk> {
    let mut plan = held_plan();
    if gougelily::plan(&Flat::of(layout), &mut plan) < 0 {
        return None;
    }
    let ([rank], [operands]) = (plan.rank, plan.operands);
    let numbers = |array: &[u64; 64]| array[..rank].iter().map(|&n| n as usize).collect();
    let row = |operand: usize| {
        let row = &plan.strides[operand * 64..operand * 64 + rank];
        row.iter().map(|&stride| stride as isize).collect()
    };
    Some(Walk {
        extents: numbers(&plan.extents),
        blocks: numbers(&plan.blocks),
        starts: vec![0; operands],
        strides: (0..operands).map(row).collect(),
    })
}

/// A state before a call, and after one that is refused.
pub fn held_state() -> State {
    State {
        ended: [HELD],
        counters: [HELD; 64],
        offsets: [HELD as i64; 8],
    }
}

/// A block before a call, and after one that hands out none.
pub fn held_block() -> Block {
    Block {
        counters: [HELD; 64],
        length: [HELD],
        offsets: [HELD as i64; 8],
        strides: [HELD as i64; 8],
    }
}

/// The plan of a walk as the port takes it. What lies behind the counts is not
/// looked at: it is `behind`. Of a rank above 64 and of more than 8 operands only the
/// number is told.
pub fn plan_of(walk: &Walk, behind: u64) -> Plan {
    let mut plan = Plan {
        rank: [walk.extents.len()],
        operands: [walk.strides.len()],
        extents: [behind; 64],
        blocks: [behind; 64],
        strides: [behind as i64; 512],
    };
    for axis in 0..walk.extents.len().min(64) {
        plan.extents[axis] = walk.extents[axis] as u64;
        plan.blocks[axis] = walk.blocks[axis] as u64;
        for (operand, row) in walk.strides.iter().take(8).enumerate() {
            plan.strides[operand * 64 + axis] = row[axis] as i64;
        }
    }
    plan
}

/// The state in which a walk stands at counters, or in which it has ended.
pub fn state_of(walk: &Walk, counters: Option<&[usize]>) -> State {
    let at = |(row, &start): (&Vec<isize>, &isize)| {
        let way = counters.map_or(0, |counters| distance(counters, row));
        isize::try_from(start as i128 + way).expect("row 9 keeps the offsets")
    };
    State {
        ended: [u64::from(counters.is_none())],
        counters: padded(counters.unwrap_or(&[]).iter().copied()),
        offsets: padded_strides(walk.strides.iter().zip(&walk.starts).map(at)),
    }
}

/// The sum of counter times stride.
pub fn distance(counters: &[usize], strides: &[isize]) -> i128 {
    let terms = counters.iter().zip(strides);
    terms
        .map(|(&counter, &stride)| counter as i128 * stride as i128)
        .sum()
}

/// The starts as the port takes them.
pub fn starts_of(walk: &Walk) -> Vec<i64> {
    walk.starts.iter().map(|&start| start as i64).collect()
}

/// Fails unless two states are the same.
pub fn same_state(port: &State, original: &State) -> Result<(), String> {
    same("state, ended", port.ended, original.ended)?;
    same_array("state, counters", &port.counters, &original.counters)?;
    same_array("state, offsets", &port.offsets, &original.offsets)
}

/// Fails unless two blocks are the same.
pub fn same_block(port: &Block, original: &Block) -> Result<(), String> {
    same_array("block, counters", &port.counters, &original.counters)?;
    same("block, length", port.length, original.length)?;
    same_array("block, offsets", &port.offsets, &original.offsets)?;
    same_array("block, strides", &port.strides, &original.strides)
}

/// A step by the library, into a state and a block. The step by value and the lent
/// step have to do the same from the same state.
pub fn step(plan: &Plan, state: &mut State, block: &mut Block) -> Result<i64, String> {
    let given = (state.clone(), block.clone());
    let code = gougelily::step(plan, state, block);
    let by_value: fn(&Plan, &mut State, &mut Block) -> i64 = parts::step;
    for (name, step) in [("by value", by_value), ("lent", parts::step_lent)] {
        let told = |error| format!("the step {name}: {error}");
        let (mut other_state, mut other_block) = given.clone();
        let other = step(plan, &mut other_state, &mut other_block);
        same("code of step", other, code).map_err(told)?;
        same_state(&other_state, state).map_err(told)?;
        same_block(&other_block, block).map_err(told)?;
    }
    Ok(code)
}
