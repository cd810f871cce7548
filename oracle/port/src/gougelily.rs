//! The public library. Each function answers 0 or more, or the refusal's number
//! negated, and then every lent array is as it was. They are declared as in the
//! port's include/gougelily.h.

use crate::{Flat, Strides};

/// A plan as the port hands it out and takes it in.
#[derive(Clone, Debug, PartialEq, Eq)]
pub struct Plan {
    pub rank: [usize; 1],
    pub operands: [usize; 1],
    pub extents: [u64; 64],
    pub blocks: [u64; 64],
    pub strides: Strides,
}

/// A window as the port hands it out: a layout's extents and strides, and shifts.
#[derive(Clone, Debug, PartialEq, Eq)]
pub struct Windowed {
    pub extents: [u64; 64],
    pub strides: Strides,
    pub shifts: [i64; 8],
}

/// An index as the port tells it: how many places it has, and the places.
#[derive(Clone, Debug, PartialEq, Eq)]
pub struct Told {
    pub count: [usize; 1],
    pub index: [u64; 64],
}

/// The state of a walk.
#[derive(Clone, Debug, PartialEq, Eq)]
pub struct State {
    pub ended: [u64; 1],
    pub counters: [u64; 64],
    pub offsets: [i64; 8],
}

/// A block as a step hands it out.
#[derive(Clone, Debug, PartialEq, Eq)]
pub struct Block {
    pub counters: [u64; 64],
    pub length: [u64; 1],
    pub offsets: [i64; 8],
    pub strides: [i64; 8],
}

/// Whether the library is linked; if not, what to do.
pub fn linked() -> Result<(), String> {
    if cfg!(gougelily_linked) {
        return Ok(());
    }
    Err(crate::missing("GOUGELILY_LIB", "libgougelily.a"))
}

/// A session as the port hands it out and takes it in.
#[derive(Clone, Debug, PartialEq, Eq)]
pub struct Session {
    pub purpose: [u64; 1],
    pub chosen: [u64; 1],
    pub machine: [u64; 4],
    pub rank: [usize; 1],
    pub operands: [usize; 1],
    pub extents: [u64; 64],
    pub sizes: [u64; 8],
    pub strides: Strides,
    pub ranks: [u64; 512],
    pub weights: [u64; 64],
    pub costs: [u64; 64],
    pub plan_counts: [usize; 2],
    pub plan_extents: [u64; 64],
    pub blocks: [u64; 64],
    pub plan_strides: Strides,
}

impl Session {
    /// No session yet: zeros everywhere.
    pub fn none() -> Session {
        Session {
            purpose: [0; 1],
            chosen: [0; 1],
            machine: [0; 4],
            rank: [0; 1],
            operands: [0; 1],
            extents: [0; 64],
            sizes: [0; 8],
            strides: [0; 512],
            ranks: [0; 512],
            weights: [0; 64],
            costs: [0; 64],
            plan_counts: [0; 2],
            plan_extents: [0; 64],
            blocks: [0; 64],
            plan_strides: [0; 512],
        }
    }
}

/// gougelily_summary_t
#[derive(Clone, Copy, Debug, Default, PartialEq)]
pub struct Summary {
    pub sum: f64,
    pub least: f64,
    pub greatest: f64,
    pub count: u64,
    pub nans: u64,
    pub extremes: u64,
}

#[cfg(gougelily_linked)]
mod library {
    extern "C" {
        pub fn gougelily_plan(
            extents: *const u64,
            rank: usize,
            sizes: *const u64,
            operands: usize,
            strides: *const i64,
            stride_count: usize,
            kind: u64,
            chosen: u64,
            line: u64,
            cache: u64,
            way: u64,
            live: u64,
            plan_rank: *mut [usize; 1],
            plan_operands: *mut [usize; 1],
            plan_extents: *mut [u64; 64],
            blocks: *mut [u64; 64],
            plan_strides: *mut [i64; 512],
        ) -> i64;
        pub fn gougelily_window(
            extents: *const u64,
            rank: usize,
            sizes: *const u64,
            operands: usize,
            strides: *const i64,
            stride_count: usize,
            firsts: *const u64,
            first_count: usize,
            counts: *const u64,
            count_count: usize,
            steps: *const i64,
            step_count: usize,
            window_extents: *mut [u64; 64],
            window_strides: *mut [i64; 512],
            shifts: *mut [i64; 8],
        ) -> i64;
        pub fn gougelily_original_index(
            extents: *const u64,
            rank: usize,
            sizes: *const u64,
            operands: usize,
            strides: *const i64,
            stride_count: usize,
            kind: u64,
            chosen: u64,
            counters: *const u64,
            counter_count: usize,
            count: *mut [usize; 1],
            index: *mut [u64; 64],
        ) -> i64;
        pub fn gougelily_plan_index(
            extents: *const u64,
            rank: usize,
            sizes: *const u64,
            operands: usize,
            strides: *const i64,
            stride_count: usize,
            kind: u64,
            chosen: u64,
            original: *const u64,
            original_count: usize,
            count: *mut [usize; 1],
            index: *mut [u64; 64],
        ) -> i64;
        pub fn gougelily_begin(
            rank: usize,
            operands: usize,
            extents: *const [u64; 64],
            blocks: *const [u64; 64],
            strides: *const [i64; 512],
            starts: *const i64,
            start_count: usize,
            ended: *mut [u64; 1],
            counters: *mut [u64; 64],
            offsets: *mut [i64; 8],
        ) -> i64;
        pub fn gougelily_step(
            rank: usize,
            operands: usize,
            extents: *const [u64; 64],
            blocks: *const [u64; 64],
            strides: *const [i64; 512],
            ended: *mut [u64; 1],
            counters: *mut [u64; 64],
            offsets: *mut [i64; 8],
            block_counters: *mut [u64; 64],
            length: *mut [u64; 1],
            block_offsets: *mut [i64; 8],
            block_strides: *mut [i64; 8],
        ) -> i64;
        pub fn gougelily_visit(
            extents: *const u64,
            layout_rank: usize,
            sizes: *const u64,
            layout_operands: usize,
            strides: *const i64,
            stride_count: usize,
            kind: u64,
            chosen: u64,
            rank: usize,
            operands: usize,
            plan_extents: *const [u64; 64],
            blocks: *const [u64; 64],
            plan_strides: *const [i64; 512],
            ended: *mut [u64; 1],
            counters: *mut [u64; 64],
            offsets: *mut [i64; 8],
            number: *mut [u64; 1],
            block_counters: *mut [u64; 64],
            length: *mut [u64; 1],
            block_offsets: *mut [i64; 8],
            block_strides: *mut [i64; 8],
            count: *mut [usize; 1],
            index: *mut [u64; 64],
        ) -> i64;
        pub fn gougelily_step_many(
            rank: usize,
            operands: usize,
            extents: *const [u64; 64],
            blocks: *const [u64; 64],
            strides: *const [i64; 512],
            ended: *mut [u64; 1],
            counters: *mut [u64; 64],
            offsets: *mut [i64; 8],
            block_lengths: *mut u64,
            length_count: usize,
            block_offsets: *mut i64,
            offset_count: usize,
        ) -> i64;
        pub fn gougelily_walklist(
            text: *const u8,
            text_length: usize,
            room: *mut u8,
            room_length: usize,
        ) -> i64;
        pub fn gougelily_repeat_mark(
            extents: *const u64,
            rank: usize,
            strides: *const i64,
            stride_count: usize,
        ) -> i64;
        pub fn gougelily_judge(
            extents: *const u64,
            rank: usize,
            text: *const u8,
            text_length: usize,
            marks: *mut u8,
            mark_count: usize,
        ) -> i64;
        pub fn gougelily_summary(
            extents: *const u64,
            rank: usize,
            strides: *const i64,
            stride_count: usize,
            line: u64,
            cache: u64,
            way: u64,
            live: u64,
            start: i64,
            cells: *const f64,
            cell_count: usize,
            sum: *mut f64,
            least: *mut f64,
            greatest: *mut f64,
            count: *mut u64,
            nans: *mut u64,
            extremes: *mut u64,
        ) -> i64;

        pub fn gougelily_begin_session(
            layout_extents: *const u64,
            extent_count: usize,
            layout_sizes: *const u64,
            size_count: usize,
            layout_strides: *const i64,
            stride_count: usize,
            wanted: u64,
            leading: u64,
            line: u64,
            cache: u64,
            way: u64,
            live: u64,
            purpose: *mut [u64; 1],
            chosen: *mut [u64; 1],
            machine: *mut [u64; 4],
            rank: *mut [usize; 1],
            operands: *mut [usize; 1],
            extents: *mut [u64; 64],
            sizes: *mut [u64; 8],
            strides: *mut [i64; 512],
            ranks: *mut [u64; 512],
            weights: *mut [u64; 64],
            costs: *mut [u64; 64],
            plan_counts: *mut [usize; 2],
            plan_extents: *mut [u64; 64],
            blocks: *mut [u64; 64],
            plan_strides: *mut [i64; 512],
        ) -> i64;

        pub fn gougelily_join_session(
            purpose: *mut [u64; 1],
            chosen: *mut [u64; 1],
            machine: *mut [u64; 4],
            rank: *mut [usize; 1],
            operands: *mut [usize; 1],
            extents: *const [u64; 64],
            sizes: *mut [u64; 8],
            strides: *mut [i64; 512],
            ranks: *mut [u64; 512],
            weights: *mut [u64; 64],
            costs: *mut [u64; 64],
            plan_counts: *mut [usize; 2],
            plan_extents: *mut [u64; 64],
            blocks: *mut [u64; 64],
            plan_strides: *mut [i64; 512],
            size: u64,
            joining: *const i64,
            joining_count: usize,
        ) -> i64;

        pub fn gougelily_leave_session(
            purpose: *mut [u64; 1],
            chosen: *mut [u64; 1],
            machine: *mut [u64; 4],
            rank: *mut [usize; 1],
            operands: *mut [usize; 1],
            extents: *const [u64; 64],
            sizes: *mut [u64; 8],
            strides: *mut [i64; 512],
            ranks: *mut [u64; 512],
            weights: *mut [u64; 64],
            costs: *mut [u64; 64],
            plan_counts: *mut [usize; 2],
            plan_extents: *mut [u64; 64],
            blocks: *mut [u64; 64],
            plan_strides: *mut [i64; 512],
            operand: u64,
        ) -> i64;
    }
}

/// Declares a safe face: the call if the library is linked, else a panic. Each
/// function reads the slices and arrays it is handed and writes at most those it
/// is lent.
macro_rules! faces {
    ($($(#[$doc:meta])* pub fn $face:ident($($name:ident: $type:ty),* $(,)?) -> i64 { $($call:tt)* })*) => {
        $($(#[$doc])*
        #[cfg(gougelily_linked)]
        #[inline]
        pub fn $face($($name: $type),*) -> i64 {
            unsafe { $($call)* }
        }

        $(#[$doc])*
        #[cfg(not(gougelily_linked))]
        pub fn $face($(_: $type),*) -> i64 {
            unreachable!("a program asks `linked` first")
        })*
    };
}

faces! {
    /// The plan of a layout.
    pub fn plan(layout: &Flat, plan: &mut Plan) -> i64 {
        library::gougelily_plan(
            layout.extents.as_ptr(),
            layout.extents.len(),
            layout.sizes.as_ptr(),
            layout.sizes.len(),
            layout.strides.as_ptr(),
            layout.strides.len(),
            layout.kind,
            layout.chosen,
            // the Rust's own four numbers
            64,
            32768,
            4096,
            6,
            &mut plan.rank,
            &mut plan.operands,
            &mut plan.extents,
            &mut plan.blocks,
            &mut plan.strides,
        )
    }

    /// A window of a layout.
    pub fn window(
        layout: &Flat,
        firsts: &[u64],
        counts: &[u64],
        steps: &[i64],
        windowed: &mut Windowed,
    ) -> i64 {
        library::gougelily_window(
            layout.extents.as_ptr(),
            layout.extents.len(),
            layout.sizes.as_ptr(),
            layout.sizes.len(),
            layout.strides.as_ptr(),
            layout.strides.len(),
            firsts.as_ptr(),
            firsts.len(),
            counts.as_ptr(),
            counts.len(),
            steps.as_ptr(),
            steps.len(),
            &mut windowed.extents,
            &mut windowed.strides,
            &mut windowed.shifts,
        )
    }

    /// The original index of a plan index.
    pub fn original_index(layout: &Flat, counters: &[u64], told: &mut Told) -> i64 {
        library::gougelily_original_index(
            layout.extents.as_ptr(),
            layout.extents.len(),
            layout.sizes.as_ptr(),
            layout.sizes.len(),
            layout.strides.as_ptr(),
            layout.strides.len(),
            layout.kind,
            layout.chosen,
            counters.as_ptr(),
            counters.len(),
            &mut told.count,
            &mut told.index,
        )
    }

    /// The plan index of an original index.
    pub fn plan_index(layout: &Flat, original: &[u64], told: &mut Told) -> i64 {
        library::gougelily_plan_index(
            layout.extents.as_ptr(),
            layout.extents.len(),
            layout.sizes.as_ptr(),
            layout.sizes.len(),
            layout.strides.as_ptr(),
            layout.strides.len(),
            layout.kind,
            layout.chosen,
            original.as_ptr(),
            original.len(),
            &mut told.count,
            &mut told.index,
        )
    }

    /// The beginning of a walk.
    pub fn begin(plan: &Plan, starts: &[i64], state: &mut State) -> i64 {
        library::gougelily_begin(
            plan.rank[0],
            plan.operands[0],
            &plan.extents,
            &plan.blocks,
            &plan.strides,
            starts.as_ptr(),
            starts.len(),
            &mut state.ended,
            &mut state.counters,
            &mut state.offsets,
        )
    }

    /// One step of a lent walk: 1 if it hands out a block, 0 if the walk has ended.
    pub fn step(plan: &Plan, state: &mut State, block: &mut Block) -> i64 {
        library::gougelily_step(
            plan.rank[0],
            plan.operands[0],
            &plan.extents,
            &plan.blocks,
            &plan.strides,
            &mut state.ended,
            &mut state.counters,
            &mut state.offsets,
            &mut block.counters,
            &mut block.length,
            &mut block.offsets,
            &mut block.strides,
        )
    }

    /// A visit of a lent walk: a step, with the block's number and the original
    /// index of its first cell.
    pub fn visit(
        flat: &Flat,
        plan: &Plan,
        state: &mut State,
        number: &mut [u64; 1],
        block: &mut Block,
        told: &mut Told,
    ) -> i64 {
        library::gougelily_visit(
            flat.extents.as_ptr(),
            flat.extents.len(),
            flat.sizes.as_ptr(),
            flat.sizes.len(),
            flat.strides.as_ptr(),
            flat.strides.len(),
            flat.kind,
            flat.chosen,
            plan.rank[0],
            plan.operands[0],
            &plan.extents,
            &plan.blocks,
            &plan.strides,
            &mut state.ended,
            &mut state.counters,
            &mut state.offsets,
            number,
            &mut block.counters,
            &mut block.length,
            &mut block.offsets,
            &mut block.strides,
            &mut told.count,
            &mut told.index,
        )
    }

    /// Many steps of a lent walk: how many blocks it hands out, at most as many as
    /// both slices have room for. A block has `operands` offsets.
    pub fn step_many(
        plan: &Plan,
        state: &mut State,
        lengths: &mut [u64],
        offsets: &mut [i64],
    ) -> i64 {
        library::gougelily_step_many(
            plan.rank[0],
            plan.operands[0],
            &plan.extents,
            &plan.blocks,
            &plan.strides,
            &mut state.ended,
            &mut state.counters,
            &mut state.offsets,
            lengths.as_mut_ptr(),
            lengths.len(),
            offsets.as_mut_ptr(),
            offsets.len(),
        )
    }

    /// The listing of a layout's text: its length.
    pub fn walklist(text: &[u8], room: &mut [u8]) -> i64 {
        library::gougelily_walklist(text.as_ptr(), text.len(), room.as_mut_ptr(), room.len())
    }

    /// The verdict on a list of visits: 0 accepted, 1 short, 2 double, 3 outside.
    pub fn judge(extents: &[u64], text: &[u8], marks: &mut [u8]) -> i64 {
        library::gougelily_judge(
            extents.as_ptr(),
            extents.len(),
            text.as_ptr(),
            text.len(),
            marks.as_mut_ptr(),
            marks.len(),
        )
    }

    /// The summary of an operand's cells.
    pub fn summary(
        extents: &[u64],
        strides: &[i64],
        start: i64,
        cells: &[f64],
        summary: &mut Summary,
    ) -> i64 {
        library::gougelily_summary(
            extents.as_ptr(),
            extents.len(),
            strides.as_ptr(),
            strides.len(),
            // the Rust's own four numbers
            64,
            32768,
            4096,
            6,
            start,
            cells.as_ptr(),
            cells.len(),
            &mut summary.sum,
            &mut summary.least,
            &mut summary.greatest,
            &mut summary.count,
            &mut summary.nans,
            &mut summary.extremes,
        )
    }

    /// The repeat mark of an operand: 0 for no, 1 for yes, 2 for undecided.
    pub fn repeat_mark(extents: &[u64], strides: &[i64]) -> i64 {
        library::gougelily_repeat_mark(
            extents.as_ptr(),
            extents.len(),
            strides.as_ptr(),
            strides.len(),
        )
    }

    /// A session begins with a layout.
    pub fn begin_session(layout: &Flat, session: &mut Session) -> i64 {
        library::gougelily_begin_session(
            layout.extents.as_ptr(),
            layout.extents.len(),
            layout.sizes.as_ptr(),
            layout.sizes.len(),
            layout.strides.as_ptr(),
            layout.strides.len(),
            layout.kind,
            layout.chosen,
            // the Rust's own four numbers
            64,
            32768,
            4096,
            6,
            &mut session.purpose,
            &mut session.chosen,
            &mut session.machine,
            &mut session.rank,
            &mut session.operands,
            &mut session.extents,
            &mut session.sizes,
            &mut session.strides,
            &mut session.ranks,
            &mut session.weights,
            &mut session.costs,
            &mut session.plan_counts,
            &mut session.plan_extents,
            &mut session.blocks,
            &mut session.plan_strides,
        )
    }

    /// An operand joins a session.
    pub fn join_session(session: &mut Session, size: u64, strides: &[i64]) -> i64 {
        library::gougelily_join_session(
            &mut session.purpose,
            &mut session.chosen,
            &mut session.machine,
            &mut session.rank,
            &mut session.operands,
            &session.extents,
            &mut session.sizes,
            &mut session.strides,
            &mut session.ranks,
            &mut session.weights,
            &mut session.costs,
            &mut session.plan_counts,
            &mut session.plan_extents,
            &mut session.blocks,
            &mut session.plan_strides,
            size,
            strides.as_ptr(),
            strides.len(),
        )
    }

    /// An operand leaves a session.
    pub fn leave_session(session: &mut Session, operand: u64) -> i64 {
        library::gougelily_leave_session(
            &mut session.purpose,
            &mut session.chosen,
            &mut session.machine,
            &mut session.rank,
            &mut session.operands,
            &session.extents,
            &mut session.sizes,
            &mut session.strides,
            &mut session.ranks,
            &mut session.weights,
            &mut session.costs,
            &mut session.plan_counts,
            &mut session.plan_extents,
            &mut session.blocks,
            &mut session.plan_strides,
            operand,
        )
    }
}
