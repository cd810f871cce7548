//! Shim of strided-basic: the original planner files, with the changes that
//! document 02 asks for, behind a small public face. Only this file is a
//! stand-in; the build fails if a constant here differs from the original's. The
//! package strided-unchanged is the same without the changes.

include!(concat!(env!("OUT_DIR"), "/originals.rs"));

pub mod probe;

pub use inline::{InlineVec, OperandVec};
pub use kernel::SMALL_TENSOR_THRESHOLD;
pub use strided_view::*;

// Constants of the original lib.rs.
pub const BLOCK_MEMORY_SIZE: usize = 32 * 1024;
pub const CACHE_LINE_SIZE: usize = 64;
pub(crate) const L1_WAYS: usize = 8;
pub(crate) const L1_LIVE_LINES_PER_SET: usize = L1_WAYS - L1_WAYS / 4;

/// The limits of the original raw_ops.rs.
pub(crate) mod raw_ops {
    pub const RAW_FUSED_RANK_LIMIT: usize = 8;
    pub(crate) const MAX_MOVING_AXES: usize = usize::BITS as usize;
}

/// Named by kernel.rs only in functions that the oracle never calls.
pub struct Exec<'a>(std::marker::PhantomData<&'a ()>);

/// Named by kernel.rs only in functions that the oracle never calls.
pub mod cost {
    #[derive(Clone, Copy)]
    pub enum KernelClass {
        Map,
    }
}

/// Named by kernel.rs only in functions that the oracle never calls.
pub mod threading {
    pub fn is_parallel(_: crate::cost::KernelClass, _: usize, _: &crate::Exec<'_>) -> bool {
        false
    }
}

/// A plan of the original: axes in loop order with their blocks.
pub struct Plan {
    pub extents: Vec<usize>,
    pub strides: Vec<Vec<isize>>,
    pub blocks: Vec<usize>,
}

type OriginalPlan = (
    InlineVec<usize>,
    OperandVec<InlineVec<isize>>,
    kernel::KernelPlan,
);

fn plan((extents, strides, plan): OriginalPlan) -> Plan {
    Plan {
        extents: extents.to_vec(),
        strides: strides.iter().map(|row| row.to_vec()).collect(),
        blocks: plan.block.to_vec(),
    }
}

/// The original `total_len`; `None` if the product is above 2^64 - 1.
pub fn total_len(extents: &[usize]) -> Option<usize> {
    kernel::total_len(extents).ok()
}

/// The original `pointwise_plan`.
pub fn pointwise_plan(
    extents: &[usize],
    strides: &[&[isize]],
    chosen: Option<usize>,
    sizes: &[usize],
    total: usize,
) -> Plan {
    plan(kernel::pointwise_plan(
        extents, strides, chosen, sizes, total,
    ))
}

/// The original `total_len` and `pointwise_plan`, or `fold_plan`, the plan's
/// extents, strides and blocks lent: for timing.
pub fn with_plan<R>(
    extents: &[usize],
    strides: &[&[isize]],
    chosen: Option<usize>,
    fold: bool,
    sizes: &[usize],
    f: impl FnOnce(&[usize], &[InlineVec<isize>], &[usize]) -> R,
) -> R {
    let total = kernel::total_len(extents).expect("a total below 2^64");
    let (extents, strides, plan) = match (fold, chosen) {
        (true, Some(chosen)) => kernel::fold_plan(extents, strides, chosen, sizes, total),
        _ => kernel::pointwise_plan(extents, strides, chosen, sizes, total),
    };
    f(&extents, &strides, &plan.block)
}

/// The original `fold_plan`.
pub fn fold_plan(
    extents: &[usize],
    strides: &[&[isize]],
    chosen: usize,
    sizes: &[usize],
    total: usize,
) -> Plan {
    plan(kernel::fold_plan(extents, strides, chosen, sizes, total))
}

/// The original `for_each_inner_block_preordered`.
pub fn for_each_inner_block_preordered<S, F>(
    extents: &[usize],
    blocks: &[usize],
    strides: &[S],
    starts: &[isize],
    f: F,
) -> Result<()>
where
    S: AsRef<[isize]>,
    F: FnMut(&[isize], usize, &[isize]) -> Result<()>,
{
    kernel::for_each_inner_block_preordered(extents, blocks, strides, starts, f)
}

/// The original `index_order`.
pub fn index_order(strides: &[isize]) -> Vec<usize> {
    strided_view::auxiliary::index_order(strides).to_vec()
}

/// The original `index_order`, its result lent: for timing.
pub fn with_ranks<R>(strides: &[isize], f: impl FnOnce(&[usize]) -> R) -> R {
    f(&strided_view::auxiliary::index_order(strides))
}

/// The original `compute_importance`, with the lead's row first, as
/// `compute_order` hands it over; the ranks are worked out here.
pub fn compute_importance(extents: &[usize], strides: &[&[isize]]) -> Vec<u64> {
    let ranks: Vec<Vec<usize>> = strides.iter().map(|row| index_order(row)).collect();
    fuse::compute_importance(extents, strides, &ranks).to_vec()
}

/// The original `compute_order`.
pub fn compute_order(extents: &[usize], strides: &[&[isize]], chosen: Option<usize>) -> Vec<usize> {
    order::compute_order(extents, strides, chosen).to_vec()
}

/// The original `compute_order`, its result lent: for timing.
pub fn with_order<R>(
    extents: &[usize],
    strides: &[&[isize]],
    chosen: Option<usize>,
    f: impl FnOnce(&[usize]) -> R,
) -> R {
    f(&order::compute_order(extents, strides, chosen))
}

/// The original `fuse_dims`.
pub fn fuse_dims(extents: &[usize], strides: &[&[isize]]) -> Vec<usize> {
    fuse::fuse_dims(extents, strides).to_vec()
}

/// The original `compress_dims`.
pub fn compress_dims(extents: &[usize], strides: &[&[isize]]) -> (Vec<usize>, Vec<Vec<isize>>) {
    let (extents, strides) = fuse::compress_dims(extents, strides);
    let strides = strides.iter().map(|row| row.to_vec()).collect();
    (extents.to_vec(), strides)
}

/// The original `fuse_dims` and `compress_dims`, their result lent: for timing.
pub fn with_fused<R>(
    extents: &[usize],
    strides: &[&[isize]],
    f: impl FnOnce(&[usize], &[InlineVec<isize>]) -> R,
) -> R {
    let fused = fuse::fuse_dims(extents, strides);
    let (extents, strides) = fuse::compress_dims(&fused, strides);
    f(&extents, &strides)
}

/// The same in loop order, as the original's `plan_fused` begins: for timing.
pub fn with_ordered_fused<R>(
    extents: &[usize],
    strides: &[&[isize]],
    chosen: Option<usize>,
    f: impl FnOnce(&[usize], &[InlineVec<isize>]) -> R,
) -> R {
    let order = order::compute_order(extents, strides, chosen);
    let extents: InlineVec<usize> = order.iter().map(|&axis| extents[axis]).collect();
    let in_order = |row: &&[isize]| order.iter().map(|&axis| row[axis]).collect();
    let strides: OperandVec<InlineVec<isize>> = strides.iter().map(in_order).collect();
    let strides: OperandVec<&[isize]> = strides.iter().map(|row| row.as_slice()).collect();
    with_fused(&extents, &strides, f)
}

/// The original `compute_costs`.
pub fn compute_costs(strides: &[&[isize]]) -> Vec<isize> {
    fuse::compute_costs(strides).to_vec()
}

/// The original `model_exits`: whether the cutting rule is not run.
pub fn model_exits(extents: &[usize], strides: &[&[isize]], sizes: &[usize]) -> bool {
    block::model_exits(extents, strides, sizes)
}

/// The original `reduced_block_sizes`: the cut blocks before declining.
pub fn reduced_block_sizes(
    extents: &[usize],
    strides: &[&[isize]],
    sizes: &[usize],
) -> Option<Vec<usize>> {
    block::reduced_block_sizes(extents, strides, sizes).map(|blocks| blocks.to_vec())
}

/// The original `declines_tiles`.
pub fn declines_tiles(
    extents: &[usize],
    strides: &[&[isize]],
    sizes: &[usize],
    blocks: &[usize],
) -> bool {
    block::declines_tiles(extents, strides, sizes, blocks)
}

/// The original `fit_l1_sets`: fits blocks to the L1 sets, for a destination.
pub fn fit_l1_sets(
    extents: &[usize],
    strides: &[&[isize]],
    sizes: &[usize],
    chosen: usize,
    blocks: &mut [usize],
) {
    block::fit_l1_sets(extents, strides, sizes, chosen, blocks)
}
