//! The inner parts, from crate parts: not the port's public interface. Each
//! function answers 0, or the refusal's number, and then its arrays are as they
//! were. The two steps answer as the public library's does.

use crate::gougelily::{Block, Plan, State};
use crate::{Flat, Strides};

/// The ranks, a row of 64 per operand.
pub type Ranks = [[u8; 64]; 8];

/// Whether the library is linked; if not, what to do.
pub fn linked() -> Result<(), String> {
    if cfg!(parts_linked) {
        return Ok(());
    }
    Err(crate::missing("PARTS_LIB", "libparts.a"))
}

/// Declares the functions of the library, with a safe face for each. A slice
/// passes as its address and its length, an array as its address. Numbers behind
/// `for` are handed over as they stand.
macro_rules! functions {
    ($($(#[$doc:meta])* $face:ident = $name:ident($($out:ident: &mut $array:ty),*) $(for [$($number:ident = $fixed:literal),*])?;)*) => {
        #[cfg(parts_linked)]
        extern "C" {
            $(fn $name(
                extents: *const u64,
                rank: usize,
                sizes: *const u64,
                operands: usize,
                strides: *const i64,
                count: usize,
                kind: u64,
                chosen: u64,
                $($($number: u64,)*)?
                $($out: *mut $array,)*
            ) -> u64;)*
        }

        $($(#[$doc])*
        #[cfg(parts_linked)]
        #[inline]
        pub fn $face(layout: &Flat $(, $out: &mut $array)*) -> u64 {
            // The function reads the three slices and writes at most the arrays.
            unsafe {
                $name(
                    layout.extents.as_ptr(),
                    layout.extents.len(),
                    layout.sizes.as_ptr(),
                    layout.sizes.len(),
                    layout.strides.as_ptr(),
                    layout.strides.len(),
                    layout.kind,
                    layout.chosen,
                    $($($fixed,)*)?
                    $($out,)*
                )
            }
        }

        $(#[$doc])*
        #[cfg(not(parts_linked))]
        pub fn $face(_: &Flat $(, _: &mut $array)*) -> u64 {
            unreachable!("a program asks `linked` first")
        })*
    };
}

functions! {
    /// The refusal's number by rows 1 to 6, or 0.
    check = parts_check();
    /// The ranks.
    ranks = parts_ranks(out: &mut Ranks);
    /// The weights.
    weights = parts_weights(out: &mut [u64; 64]);
    /// The loop order.
    order = parts_order(out: &mut [usize; 64]);
    /// The extents after fusing, in the order of fusing.
    fused = parts_fused(out: &mut [u64; 64]);
    /// The plan's axes: their number, extents and strides.
    axes = parts_axes(rank: &mut [usize; 1], extents: &mut [u64; 64], strides: &mut Strides);
    /// The costs of the plan's axes.
    costs = parts_costs(out: &mut [u64; 64]);
    /// The plan, by the entry that returns it by value.
    plan = parts_plan(rank: &mut [usize; 1], operands: &mut [usize; 1], extents: &mut [u64; 64], blocks: &mut [u64; 64], strides: &mut Strides)
        for [line = 64, cache = 32768, way = 4096, live = 6];
}

/// Declares the steps, with a safe face for each.
macro_rules! steps {
    ($($(#[$doc:meta])* $face:ident = $name:ident;)*) => {
        #[cfg(parts_linked)]
        extern "C" {
            $(fn $name(
                rank: usize,
                operands: usize,
                extents: *const [u64; 64],
                blocks: *const [u64; 64],
                strides: *const Strides,
                ended: *mut [u64; 1],
                counters: *mut [u64; 64],
                offsets: *mut [i64; 8],
                block_counters: *mut [u64; 64],
                length: *mut [u64; 1],
                block_offsets: *mut [i64; 8],
                block_strides: *mut [i64; 8],
            ) -> i64;)*
        }

        $($(#[$doc])*
        #[cfg(parts_linked)]
        #[inline]
        pub fn $face(plan: &Plan, state: &mut State, block: &mut Block) -> i64 {
            // The function reads the plan and writes at most the state and the block.
            unsafe {
                $name(
                    plan.rank[0],
                    plan.operands[0],
                    &plan.extents,
                    &plan.blocks,
                    &plan.strides,
                    &mut state.ended,
                    &mut state.counters,
                    &mut state.offsets,
                    &mut block.counters,
                    &mut block.length,
                    &mut block.offsets,
                    &mut block.strides,
                )
            }
        }

        $(#[$doc])*
        #[cfg(not(parts_linked))]
        pub fn $face(_: &Plan, _: &mut State, _: &mut Block) -> i64 {
            unreachable!("a program asks `linked` first")
        })*
    };
}

steps! {
    /// A step by value.
    step = parts_step;
    /// A lent step.
    step_lent = parts_step_lent;
}
