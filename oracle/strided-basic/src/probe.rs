//! The counters that the counted copies of block.rs and fuse.rs call, and the
//! questions that are put to those copies. No plan is made here.

use std::cell::{Cell, RefCell};

/// A branch that a counted copy takes.
#[derive(Clone, Copy, Debug, PartialEq, Eq, PartialOrd, Ord)]
pub enum Event {
    KeptFirst,
    TailToOne,
    Halved,
    Lessened,
    RegionAbove64Bits,
    FitLoadWithin,
    FitSkipChosenZero,
    FitSkipNotEntering,
    FitSkipBlockOne,
    FitSetOne,
    FitGreatest,
    SlabSizeZero,
    SlabWidth,
    SlabWideTail,
    SlabTailLine,
    SlabTailSpan,
    FuseBothZero,
    FuseNegative,
    FuseBrokenStride,
    FuseBrokenExtent,
    FuseBrokenProduct,
    FuseTotalAbove64Bits,
}

/// What a counted run has met.
#[derive(Clone, Debug, Default)]
pub struct Seen {
    pub events: Vec<Event>,
    /// Width and cap of the last try at the weights.
    pub weights: Option<(u64, u64)>,
    /// Single steps: halvings, and takings off of 1.
    pub steps: u64,
    pub capped: bool,
}

thread_local! {
    static SEEN: RefCell<Seen> = RefCell::new(Seen::default());
    static STEPS_LEFT: Cell<u64> = const { Cell::new(0) };
}

pub(crate) fn note(event: Event) {
    SEEN.with_borrow_mut(|seen| {
        if !seen.events.contains(&event) {
            seen.events.push(event);
        }
    });
}

/// Counts a single step; false if no more are allowed.
pub(crate) fn step(event: Event) -> bool {
    if STEPS_LEFT.get() == 0 {
        SEEN.with_borrow_mut(|seen| seen.capped = true);
        return false;
    }
    STEPS_LEFT.set(STEPS_LEFT.get() - 1);
    SEEN.with_borrow_mut(|seen| seen.steps += 1);
    note(event);
    true
}

pub(crate) fn note_skip(enters: bool) {
    note(if enters {
        Event::FitSkipBlockOne
    } else {
        Event::FitSkipNotEntering
    });
}

pub(crate) fn note_tail(not_a_multiple: bool) {
    note(if not_a_multiple {
        Event::SlabTailLine
    } else {
        Event::SlabTailSpan
    });
}

pub(crate) fn note_break(extent: usize, expected: Option<isize>) {
    note(match expected {
        Some(_) => Event::FuseBrokenStride,
        None if isize::try_from(extent).is_err() => Event::FuseBrokenExtent,
        None => Event::FuseBrokenProduct,
    });
}

pub(crate) fn note_join(extents: &[usize], strides: &[&[isize]], axis: usize) {
    if extents[axis - 1].checked_mul(extents[axis]).is_none() {
        note(Event::FuseTotalAbove64Bits);
    } else if strides.iter().any(|row| row[axis] < 0) {
        note(Event::FuseNegative);
    }
}

pub(crate) fn note_weights(width: u64, cap: u64) {
    SEEN.with_borrow_mut(|seen| seen.weights = Some((width, cap)));
}

fn counted<T>(steps: u64, run: impl FnOnce() -> T) -> (T, Seen) {
    STEPS_LEFT.set(steps);
    SEEN.set(Seen::default());
    let answer = run();
    (answer, SEEN.take())
}

/// Runs the cutting rule alone, with at most so many single steps.
pub fn cut(extents: &[usize], strides: &[&[isize]], sizes: &[usize], steps: u64) -> Seen {
    counted(steps, || {
        crate::block_counted::reduced_block_sizes(extents, strides, sizes)
    })
    .1
}

/// Runs cutting, declining and fitting; `fit` is the destination to fit for.
pub fn blocks(
    extents: &[usize],
    strides: &[&[isize]],
    sizes: &[usize],
    fit: Option<usize>,
    steps: u64,
) -> (Vec<usize>, Seen) {
    counted(steps, || {
        match fit {
            Some(chosen) => {
                crate::block_counted::destination_block_sizes(extents, strides, sizes, chosen)
            }
            None => crate::block_counted::compute_block_sizes(extents, strides, sizes),
        }
        .to_vec()
    })
}

/// Runs fusing.
pub fn fuse(extents: &[usize], strides: &[&[isize]]) -> (Vec<usize>, Seen) {
    counted(0, || {
        crate::fuse_counted::fuse_dims(extents, strides).to_vec()
    })
}

/// Runs the weights, with the lead's row first.
pub fn weights(extents: &[usize], strides: &[&[isize]]) -> (Vec<u64>, Seen) {
    let ranks: Vec<Vec<usize>> = strides.iter().map(|row| crate::index_order(row)).collect();
    counted(0, || {
        crate::fuse_counted::compute_importance(extents, strides, &ranks).to_vec()
    })
}

/// The private `memory_region` of block.rs over all axes.
pub fn region(extents: &[usize], strides: &[&[isize]], sizes: &[usize]) -> u128 {
    crate::block_counted::region_door(extents, strides, sizes)
}

/// The private `strictly_increasing` of block.rs.
pub fn increasing(strides: &[isize]) -> bool {
    crate::block_counted::increasing_door(strides)
}
