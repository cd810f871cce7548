//! Blocks of layouts on which the original takes too many single steps. It is
//! document 01's cutting with the phase that takes 1 off worked out at once; axes
//! without a cost are passed over (ask 7 of document 02). All else comes from the
//! original: its exits, ranks, costs, regions, declining and fit. The tests compare
//! the model with the original where that comes back.

use crate::layout::Layout;
use strided_basic as original;

const MEMORY: u128 = original::BLOCK_MEMORY_SIZE as u128;

/// The blocks of a plan's axes whose total is above 1,024; `fit` is the
/// destination to fit for.
pub fn blocks(
    extents: &[usize],
    strides: &[&[isize]],
    sizes: &[usize],
    fit: Option<usize>,
) -> Vec<usize> {
    if original::model_exits(extents, strides, sizes) {
        return extents.to_vec();
    }
    let mut blocks = extents.to_vec();
    cut(&mut blocks, strides, sizes);
    if original::declines_tiles(extents, strides, sizes, &blocks) {
        return extents.to_vec();
    }
    if let Some(chosen) = fit {
        original::fit_l1_sets(extents, strides, sizes, chosen, &mut blocks);
    }
    blocks
}

/// The cutting rule. The tail begins at `first`.
fn cut(blocks: &mut [usize], strides: &[&[isize]], sizes: &[usize]) {
    let ranks_of = |(row, &size): (&&[isize], &usize)| match size {
        0 => vec![1; row.len()],
        _ => original::index_order(row),
    };
    let ranks: Vec<Vec<usize>> = strides.iter().zip(sizes).map(ranks_of).collect();
    let costs: Vec<u128> = original::compute_costs(strides)
        .iter()
        .map(|&cost| cost as u128)
        .collect();
    for first in 0..blocks.len() {
        let tails: Vec<&[isize]> = strides.iter().map(|row| &row[first..]).collect();
        let region = |tail: &[usize]| original::probe::region(tail, &tails, sizes);
        let tail = &mut blocks[first..];
        if region(tail) <= MEMORY {
            return;
        }
        let least = ranks.iter().flat_map(|row| &row[first..]).min();
        if ranks.iter().all(|row| Some(&row[first]) == least) {
            continue;
        }
        let byte_strides = tails.iter().zip(sizes).flat_map(|(row, &size)| {
            let bytes = move |stride: &isize| stride.unsigned_abs() as u128 * size as u128;
            row.iter().map(bytes)
        });
        if byte_strides.min().is_some_and(|least| least > MEMORY) {
            tail.fill(1);
            return;
        }
        halve(tail, &costs[first..], region);
        lessen(tail, &costs[first..], region);
        return;
    }
}

fn score(block: usize, cost: u128) -> u128 {
    (block - 1) as u128 * cost
}

/// Halves the block with the greatest score, the last of several.
fn halve(tail: &mut [usize], costs: &[u128], region: impl Fn(&[usize]) -> u128) {
    while region(tail) >= 2 * MEMORY {
        let weighed = (0..tail.len()).filter(|&axis| tail[axis] > 1 && costs[axis] > 0);
        let Some(axis) = weighed.max_by_key(|&axis| score(tail[axis], costs[axis])) else {
            return;
        };
        tail[axis] = tail[axis].div_ceil(2);
    }
}

/// Takes 1 off the greatest score until the region is within the memory. A score
/// falls with each step, so the scores go from the greatest down, all axes taken
/// together: every block ends where its score is below a level, and at the level
/// itself the last axes come first.
fn lessen(tail: &mut [usize], costs: &[u128], region: impl Fn(&[usize]) -> u128) {
    let start = tail.to_vec();
    let clipped = |level: u128| -> Vec<usize> {
        let clip = |(&block, &cost): (&usize, &u128)| {
            if cost == 0 {
                return block;
            }
            let most = usize::try_from(level / cost).map_or(usize::MAX, |n| n.saturating_add(1));
            block.min(most)
        };
        start.iter().zip(costs).map(clip).collect()
    };
    if region(tail) <= MEMORY {
        return;
    }
    if region(&clipped(0)) > MEMORY {
        tail.copy_from_slice(&clipped(0));
        return;
    }
    // Clipped at `low` the region is within the memory, at `high` it is not.
    let scores = start.iter().zip(costs);
    let greatest = scores.map(|(&block, &cost)| score(block, cost)).max();
    let (mut low, mut high) = (0, greatest.expect("a tail has axes"));
    while high - low > 1 {
        let middle = low + (high - low) / 2;
        if region(&clipped(middle)) <= MEMORY {
            low = middle;
        } else {
            high = middle;
        }
    }
    tail.copy_from_slice(&clipped(high));
    for axis in (0..tail.len()).rev() {
        if score(tail[axis], costs[axis]) == high {
            tail[axis] -= 1;
            if region(tail) <= MEMORY {
                return;
            }
        }
    }
    unreachable!("clipped at {low} the region is within the memory");
}

/// An extent that no layout but a slow one has.
const LONG: usize = 1 << 20;

/// A slow layout with its first long axis of another length and its other long
/// axes of 2, so that the original comes back.
pub fn shortened(slow: &Layout, length: usize) -> Layout {
    let mut layout = slow.clone();
    let long = layout.extents.iter_mut().filter(|extent| **extent >= LONG);
    for (place, extent) in long.enumerate() {
        *extent = if place == 0 { length } else { 2 };
    }
    layout
}
