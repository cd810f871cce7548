//! The walks that are made of a layout: its plan with its own blocks and with
//! others, the layout as it is, and a drawn plan of a low rank; with starts at the
//! limits of row 9, one past them, and any.

use crate::compare::Counts;
use crate::states::start_limits;
use crate::values::planned;
use tools::generate::{any_stride, Random};
use tools::layout::{Layout, Walk};

/// The ranks of drawn plans.
const RANKS: [usize; 14] = [0, 1, 2, 3, 4, 5, 6, 7, 8, 9, 10, 11, 12, 64];

/// A block for an extent, with the name under which it is counted.
type Size = (&'static str, fn(usize) -> usize);

/// Blocks for the extents, one choice for all axes or one for each, and the name
/// under which the choice is counted.
fn named_blocks(extents: &[usize], random: &mut Random) -> (&'static str, Vec<usize>) {
    const SIZES: [Size; 7] = [
        ("blocks of 0", |_| 0),
        ("blocks of 1", |_| 1),
        ("blocks of 2", |_| 2),
        ("blocks of extent - 1", |extent| extent.saturating_sub(1)),
        ("blocks of extent", |extent| extent),
        ("blocks of extent + 1", |extent| extent.saturating_add(1)),
        ("blocks of 2^64 - 1", |_| usize::MAX),
    ];
    if random.chance(1, 2) {
        let size = |&extent: &usize| match random.within(0, 7) {
            7 => random.within(1, extent.clamp(1, 9)),
            choice => SIZES[choice].1(extent),
        };
        return ("blocks mixed by axis", extents.iter().map(size).collect());
    }
    let (name, size) = random.pick(&SIZES);
    (name, extents.iter().map(|&extent| size(extent)).collect())
}

/// Blocks for the extents.
pub fn draw_blocks(extents: &[usize], random: &mut Random) -> Vec<usize> {
    named_blocks(extents, random).1
}

/// Blocks for the extents, counted.
fn counted_blocks(extents: &[usize], random: &mut Random, met: &mut Counts) -> Vec<usize> {
    let (name, blocks) = named_blocks(extents, random);
    met.add(name);
    blocks
}

/// Starts for a walk: at a limit, one past it, or any. Only where the limits are:
/// rows 1, 2, 5 and 6 pass, and no extent is 0.
fn draw_starts(walk: &mut Walk, random: &mut Random, met: &mut Counts) {
    walk.starts = vec![0; walk.strides.len()];
    let limited = walk.refusal().is_none() && !walk.extents.contains(&0);
    let choice = random.within(0, 5);
    if choice == 0 {
        return met.add("starts of 0");
    }
    if !limited {
        met.add("any starts");
        let any = |start: &mut isize| *start = any_stride(random);
        return walk.starts.iter_mut().for_each(any);
    }
    let limits = walk
        .strides
        .iter()
        .map(|row| start_limits(&walk.extents, row));
    let limits: Vec<(i128, i128)> = limits.collect();
    for (start, &(least, greatest)) in walk.starts.iter_mut().zip(&limits) {
        let any = any_stride(random) as i128;
        *start = match random.within(0, 2) {
            0 => least,
            1 => greatest,
            _ => any.clamp(least, greatest),
        } as isize;
    }
    let operand = random.within(0, limits.len() - 1);
    let (least, greatest) = limits[operand];
    let (name, start) = match choice {
        1 => ("any starts", walk.starts[operand] as i128),
        2 => ("starts at the least", least),
        3 => ("starts at the greatest", greatest),
        4 => ("starts one past the least", least - 1),
        _ => ("starts one past the greatest", greatest + 1),
    };
    if let Ok(start) = isize::try_from(start) {
        met.add(name);
        walk.starts[operand] = start;
    }
}

/// A plan of one of the low ranks, or of rank 64.
fn drawn(random: &mut Random, met: &mut Counts) -> Walk {
    let rank = random.pick(&RANKS);
    let operands = random.pick(&[1, 1, 2, 2, 3, 8]);
    let mut left = random.pick(&[12, 40, 120, 1000]);
    let mut extents = vec![1; rank];
    for _ in 0..rank.min(16) {
        let axis = random.within(0, rank - 1);
        let extent = random.pick(&[1, 2, 2, 3, 3, 4, 5, 6, 9]).min(left);
        if extents[axis] == 1 {
            extents[axis] = extent;
            left /= extent;
        }
    }
    if rank > 0 && random.chance(1, 8) {
        let axis = random.within(0, rank - 1);
        extents[axis] = random.pick(&[0, 1 << 20, 1 << 40, 1 << 63, usize::MAX]);
    }
    let style = random.within(0, 3);
    let stride = |random: &mut Random, extent: usize| {
        let share = isize::MAX as usize / rank / extent.max(1);
        let size = match style {
            0 => random.within(0, 9),
            1 => random.magnitude(1000),
            2 => random.magnitude(share),
            _ => share - random.within(0, share.min(1)),
        };
        let size = size.min(share) as isize;
        random.pick(&[size, size, -size, 0])
    };
    let row = |random: &mut Random| extents.iter().map(|&e| stride(random, e)).collect();
    let strides: Vec<Vec<isize>> = (0..operands).map(|_| row(random)).collect();
    Walk {
        blocks: counted_blocks(&extents, random, met),
        starts: vec![0; operands],
        extents,
        strides,
    }
}

/// The walks that are made of a layout.
pub fn walks(layout: &Layout, random: &mut Random, met: &mut Counts) -> Vec<Walk> {
    let mut walks = Vec::new();
    if let Some(own) = planned(layout) {
        let mut other = own.clone();
        other.blocks = counted_blocks(&other.extents, random, met);
        met.add("plans of the port, their own blocks");
        met.add("plans of the port, other blocks");
        walks.extend([own, other]);
    }
    met.add("layouts as they are");
    walks.push(Walk {
        extents: layout.extents.clone(),
        blocks: counted_blocks(&layout.extents, random, met),
        starts: Vec::new(),
        strides: layout.strides.clone(),
    });
    met.add("drawn plans");
    walks.push(drawn(random, met));
    walks
        .iter_mut()
        .for_each(|walk| draw_starts(walk, random, met));
    walks
}
