//! States of a walk: which of them a begun walk reaches (row 10), and a step from
//! any of them. Written from document 01, with arithmetic that does not wrap; the
//! walks compare `next` with the original.

use crate::compare::{same, same_array, Counts};
use crate::values::{distance, held_block, plan_of, state_of};
use crate::values::{padded, padded_strides, same_block, same_state, step, HELD};
use port::gougelily::{self, Block, Plan, State};
use tools::generate::Random;
use tools::layout::Walk;

/// The sorts of states that are tried, named as they are counted.
pub const STATES: [&str; 13] = [
    "steps from a state in the middle",
    "steps from an offset at its limit",
    "states as a walk refused would begin",
    "states with a counter at its extent",
    "states with a counter off the tile grid",
    "states with a counter behind the rank",
    "states with an offset behind the operands",
    "states ended with a counter left",
    "states with an offset one past its limit",
    "states ended with an offset one past its limit",
    "states ended, told by any number but 0",
    "states ended at a start at its limit",
    "states of any small counters",
];

/// The least and the greatest start that row 9 allows; no extent is 0.
pub fn start_limits(extents: &[usize], strides: &[isize]) -> (i128, i128) {
    let (mut least, mut greatest) = (i64::MIN as i128, i64::MAX as i128);
    for (&extent, &stride) in extents.iter().zip(strides) {
        let way = (extent as i128 - 1) * stride as i128;
        least -= way.min(0);
        greatest -= way.max(0);
    }
    (least, greatest)
}

/// The blocks as they act: 0 as 1, one above the extent as the extent; from rank
/// 9 on only axis 0 is cut.
pub fn widths(walk: &Walk) -> Vec<usize> {
    let rank = walk.extents.len();
    let width = |axis: usize| match walk.extents[axis] {
        _ if rank >= 9 && axis > 0 => 1,
        extent => walk.blocks[axis].min(extent).max(1),
    };
    (0..rank).map(width).collect()
}

/// The counters of the next block. Inside a tile the axes above 0 take single
/// steps, axis 1 quickest; then comes the next tile, axis 0 quickest.
pub fn next(extents: &[usize], widths: &[usize], counters: &[usize]) -> Option<Vec<usize>> {
    let tile = |axis: usize| counters[axis] - counters[axis] % widths[axis];
    // Where the tile ends, and the next one starts if there is one.
    let end = |axis: usize| extents[axis].min(tile(axis).saturating_add(widths[axis]));
    let mut after = counters.to_vec();
    for axis in 1..counters.len() {
        if counters[axis] + 1 < end(axis) {
            after[axis] += 1;
            return Some(after);
        }
        after[axis] = tile(axis);
    }
    for axis in 0..counters.len() {
        if end(axis) < extents[axis] {
            after[axis] = end(axis);
            return Some(after);
        }
        after[axis] = 0;
    }
    None
}

/// What a step answers to a state: 1, 0, or the refusal's number negated.
fn verdict(walk: &Walk, state: &State) -> i64 {
    let refused = |row: u32| -i64::from(row);
    let reached = match walk.refusal() {
        Some(row @ (1 | 2)) => return refused(row),
        Some(5 | 6) => false,
        _ => reaches(walk, state),
    };
    match (reached, state.ended[0]) {
        (false, _) => refused(10),
        (true, 0) => 1,
        (true, _) => 0,
    }
}

/// Whether a begun walk reaches a state; rows 1, 2, 5 and 6 pass.
fn reaches(walk: &Walk, state: &State) -> bool {
    let (rank, operands) = (walk.extents.len(), walk.strides.len());
    let behind_counters = state.counters[rank..].iter().any(|&counter| counter != 0);
    let behind_offsets = state.offsets[operands..].iter().any(|&offset| offset != 0);
    if behind_counters || behind_offsets {
        return false;
    }
    let counters: Vec<usize> = state.counters[..rank].iter().map(|&c| c as usize).collect();
    let standing = if state.ended == [0] {
        let within = counters.iter().zip(&walk.extents).all(|(c, e)| c < e);
        within && (rank == 0 || counters[0].is_multiple_of(widths(walk)[0]))
    } else {
        counters.iter().all(|&counter| counter == 0)
    };
    let starts = walk.strides.iter().zip(&state.offsets);
    let starts = starts.map(|(row, &offset)| offset as i128 - distance(&counters, row));
    let starts: Result<Vec<isize>, _> = starts.map(isize::try_from).collect();
    standing
        && starts.is_ok_and(|starts| {
            let begun = Walk {
                starts,
                ..walk.clone()
            };
            begun.refusal().is_none()
        })
}

/// A step from a state: refused, ended, or a block and the next state.
fn compare_step(walk: &Walk, behind: u64, given: &State) -> Result<i64, String> {
    let told = |error| {
        let counters = &given.counters[..walk.extents.len().min(64)];
        let (ended, offsets) = (given.ended[0], &given.offsets);
        format!("{error}\nfrom ended {ended}, counters {counters:?}, offsets {offsets:?}")
    };
    let plan = plan_of(walk, behind);
    let (mut state, mut block) = (given.clone(), held_block());
    let code = step(&plan, &mut state, &mut block).map_err(told)?;
    same("code of step", code, verdict(walk, given)).map_err(told)?;
    compare_step_of_many(&plan, given, (code, &state, &block)).map_err(told)?;
    if code < 1 {
        same_state(&state, given).map_err(told)?;
        same_block(&block, &held_block()).map_err(told)?;
        return Ok(code);
    }
    let rank = walk.extents.len();
    let here: Vec<usize> = given.counters[..rank].iter().map(|&c| c as usize).collect();
    let widths = widths(walk);
    let length = match rank {
        0 => 1,
        _ => widths[0].min(walk.extents[0] - here[0]),
    };
    let firsts = walk.strides.iter().filter_map(|row| row.first().copied());
    let expected = Block {
        counters: given.counters,
        length: [length as u64],
        offsets: given.offsets,
        strides: padded_strides(firsts),
    };
    same_block(&block, &expected).map_err(told)?;
    let offsets = walk.strides.iter().zip(&given.offsets);
    let starts = offsets.map(|(row, &offset)| (offset as i128 - distance(&here, row)) as isize);
    let begun = Walk {
        starts: starts.collect(),
        ..walk.clone()
    };
    let after = next(&walk.extents, &widths, &here);
    same_state(&state, &state_of(&begun, after.as_deref())).map_err(told)?;
    Ok(code)
}

/// step_many with room for one block does what a step does.
fn compare_step_of_many(
    plan: &Plan,
    given: &State,
    (code, stepped, block): (i64, &State, &Block),
) -> Result<(), String> {
    let operands = plan.operands[0].clamp(1, 8);
    let (mut state, mut lengths, mut offsets) = (given.clone(), [HELD; 1], [HELD as i64; 8]);
    let offsets = &mut offsets[..operands];
    let many = gougelily::step_many(plan, &mut state, &mut lengths, offsets);
    same("code of step_many", many, code)?;
    same_state(&state, stepped)?;
    same("length of step_many", lengths, block.length)?;
    same_array("offsets of step_many", offsets, &block.offsets[..operands])
}

/// Counters where a block starts, of a walk with no extent of 0.
pub fn middle(walk: &Walk, random: &mut Random) -> Vec<usize> {
    let counter = |&extent: &usize| match random.within(0, 3) {
        0 => 0,
        1 => extent - 1,
        _ => random.within(0, extent - 1),
    };
    let mut counters: Vec<usize> = walk.extents.iter().map(counter).collect();
    if let Some(first) = counters.first_mut() {
        *first -= *first % widths(walk)[0];
    }
    counters
}

/// A walk whose states are tried.
struct Trial<'a> {
    walk: &'a Walk,
    behind: u64,
    met: &'a mut Counts,
}

impl Trial<'_> {
    /// Tries a state of a sort, to which a step has to answer so.
    fn state(&mut self, sort: &str, state: &State, expected: i64) -> Result<(), String> {
        self.met.add(sort);
        let code = compare_step(self.walk, self.behind, state)?;
        same("the sort of state", code, expected).map_err(|error| format!("{sort}: {error}"))
    }

    /// A counter at its extent, off the tile grid, or left at the end.
    fn counters(&mut self, counters: &[usize], random: &mut Random) -> Result<(), String> {
        let walk = self.walk;
        let (state, ended) = (state_of(walk, Some(counters)), state_of(walk, None));
        if counters.iter().any(|&counter| counter > 0) {
            let mut wrong = random.pick(&[&state, &ended]).clone();
            wrong.ended = [1];
            wrong.counters = state.counters;
            self.state("states ended with a counter left", &wrong, -10)?;
        }
        if counters.is_empty() {
            return Ok(());
        }
        let axis = random.within(0, counters.len() - 1);
        let mut wrong = state.clone();
        wrong.counters[axis] = walk.extents[axis] as u64;
        self.state("states with a counter at its extent", &wrong, -10)?;
        let room = widths(walk)[0].min(walk.extents[0] - counters[0]);
        if room > 1 {
            let mut off = counters.to_vec();
            off[0] += random.within(1, room - 1);
            let wrong = state_of(walk, Some(&off));
            self.state("states with a counter off the tile grid", &wrong, -10)?;
        }
        Ok(())
    }

    /// Anything but 0 behind the counts.
    fn places_behind(&mut self, counters: &[usize], random: &mut Random) -> Result<(), String> {
        let (rank, operands) = (self.walk.extents.len(), self.walk.strides.len());
        let number = random.next_number().max(1);
        for state in [
            state_of(self.walk, Some(counters)),
            state_of(self.walk, None),
        ] {
            if rank < 64 {
                let mut wrong = state.clone();
                wrong.counters[random.within(rank, 63)] = number;
                self.state("states with a counter behind the rank", &wrong, -10)?;
            }
            if operands < 8 {
                let mut wrong = state.clone();
                wrong.offsets[random.within(operands, 7)] = number as i64;
                self.state("states with an offset behind the operands", &wrong, -10)?;
            }
        }
        Ok(())
    }

    /// An operand's offset at the limits that row 9 sets, and one past them.
    fn offsets(&mut self, counters: &[usize], random: &mut Random) -> Result<(), String> {
        let operand = random.within(0, self.walk.strides.len() - 1);
        let row = &self.walk.strides[operand];
        let (least, greatest) = start_limits(&self.walk.extents, row);
        let way = distance(counters, row);
        let at = |state: &State, offset: i128| {
            let mut state = state.clone();
            state.offsets[operand] = i64::try_from(offset).ok()?;
            Some(state)
        };
        let (state, ended) = (
            state_of(self.walk, Some(counters)),
            state_of(self.walk, None),
        );
        for (limit, past) in [(least, least - 1), (greatest, greatest + 1)] {
            let tried = at(&state, limit + way).expect("row 9 keeps it");
            self.state("steps from an offset at its limit", &tried, 1)?;
            let tried = at(&ended, limit).expect("row 9 keeps it");
            self.state("states ended at a start at its limit", &tried, 0)?;
            if let Some(wrong) = at(&state, past + way) {
                self.state("states with an offset one past its limit", &wrong, -10)?;
            }
            if let Some(wrong) = at(&ended, past) {
                let sort = "states ended with an offset one past its limit";
                self.state(sort, &wrong, -10)?;
            }
        }
        Ok(())
    }

    /// Any small counters, with the starts as offsets: the verdict alone decides.
    fn any(&mut self, random: &mut Random) -> Result<(), String> {
        let counter = |&extent: &usize| random.within(0, extent.min(3));
        let any = State {
            counters: padded(self.walk.extents.iter().map(counter)),
            ended: [random.within(0, 1) as u64],
            ..state_of(self.walk, None)
        };
        self.met.add("states of any small counters");
        compare_step(self.walk, self.behind, &any).map(|_| ())
    }
}

/// Tries states of every sort that the walk has.
pub fn compare_states(
    walk: &Walk,
    behind: u64,
    random: &mut Random,
    met: &mut Counts,
) -> Result<(), String> {
    let mut trial = Trial { walk, behind, met };
    if let Some(row) = walk.refusal() {
        // The arrays of a state have 64 and 8 places.
        let begun = State {
            ended: [0],
            counters: [0; 64],
            offsets: padded_strides(walk.starts.iter().take(8).copied()),
        };
        let code = if row <= 2 { -i64::from(row) } else { -10 };
        return trial.state("states as a walk refused would begin", &begun, code);
    }
    let ended = State {
        ended: [random.next_number().max(1)],
        ..state_of(walk, None)
    };
    trial.state("states ended, told by any number but 0", &ended, 0)?;
    if walk.extents.contains(&0) {
        return Ok(());
    }
    let counters = middle(walk, random);
    let state = state_of(walk, Some(&counters));
    trial.state("steps from a state in the middle", &state, 1)?;
    trial.counters(&counters, random)?;
    trial.places_behind(&counters, random)?;
    trial.offsets(&counters, random)?;
    trial.any(random)
}
