//! The branches of the planner and of the walk, and which of them a layout
//! reaches. The counted copies tell the inner branches; the plan and the
//! blocks they are compared with come from the originals.

use crate::answer::{lead_first, plan, rows, Axes};
use crate::layout::{Layout, Purpose};
use std::collections::BTreeSet;
use strided_basic as original;
use strided_basic::probe::{Event, Seen};
use strided_unchanged as unchanged;

/// Declares the branches with the names they are counted under.
macro_rules! branches {
    ($($branch:ident = $name:literal,)*) => {
        #[derive(Clone, Copy, Debug, PartialEq, Eq, PartialOrd, Ord)]
        pub enum Branch {
            $($branch,)*
        }

        impl Branch {
            pub const ALL: &'static [Branch] = &[$(Branch::$branch,)*];

            pub fn name(self) -> &'static str {
                match self {
                    $(Branch::$branch => $name,)*
                }
            }
        }
    };
}

branches! {
    Refused1 = "refused by row 1",
    Refused2 = "refused by row 2",
    Refused4 = "refused by row 4",
    Refused5 = "refused by row 5",
    Refused6 = "refused by row 6",
    Wide = "more than 2^63 - 1 bytes, which row 7 refused",
    RankZero = "rank 0",
    ZeroExtent = "zero extent",
    SizeZero = "operand of size 0",
    AllDropped = "all axes dropped",
    TotalSmall = "total at most 1,024",
    RanksZeroStride = "ranks with a zero stride",
    RanksNegativeStride = "ranks with a negative stride",
    RanksLeastStride = "ranks with the least stride",
    WidthFull = "weights of width g",
    WidthNarrower = "weights of a narrower width",
    WidthOneCapped = "weights of width 1 with a cap",
    LeadMoved = "lead other than operand 0",
    OrderChanged = "loop order other than as given",
    OrderByExtent = "loop order other than the unchanged Rust's",
    SmallAsGiven = "total at most 1,024, where the loop order is another one",
    FuseBothZero = "fusing, both strides zero",
    FuseNegative = "fusing, a negative stride",
    FuseBrokenStride = "fusing broken by a stride",
    FuseBrokenExtent = "fusing broken by an extent above 2^63 - 1",
    FuseBrokenProduct = "fusing broken by a stride product above 64 bits",
    FuseTotal = "fusing broken by an extent product above 2^64 - 1",
    CutCapped = "cut: more steps than the cap",
    RegionAbove64Bits = "region above 64 bits",
    NoCutRegion = "no cut: region",
    NoCutGrowing = "no cut: growing strides",
    KeptFirst = "cut: first axis kept",
    TailToOne = "cut: tail to 1",
    Halved = "cut: halved",
    Lessened = "cut: 1 taken off",
    NothingShortened = "cut: rule ran, nothing shortened",
    StillNone = "cut: every axis has a cost, the unchanged Rust's blocks",
    StillAxis = "cut: an axis that nobody moves along",
    StillMoved = "cut: such an axis, other blocks than the unchanged Rust's",
    StillSlow = "cut: such an axis, the unchanged Rust takes more steps than the cap",
    Declined = "declined",
    DeclinedWideTail = "declined, more than 8 axes from the cut on",
    DeclinedSizeZero = "declined, an operand of size 0",
    KeptTiles = "not declined, first cut not axis 0",
    KeptWidth = "not declined: width not a multiple of 64",
    KeptTailLine = "not declined: stride not a multiple of 64",
    KeptTailSpan = "not declined: stride less than the span",
    FitSetOne = "fit: set 1 and go on",
    FitGreatest = "fit: set the greatest block",
    FitLoadWithin = "fit: load at most 6",
    FitUnshortened = "fit: set a block, cutting shortened nothing",
    FitSkipChosenZero = "fit: skipped, chosen stride 0",
    FitSkipNotEntering = "fit: skipped, enters no product",
    FitSkipBlockOne = "fit: skipped, block 1",
    NoFitUnchosen = "no fit: P without chosen",
    NoFitOperands = "no fit: P with other than two operands",
    NoFitFold = "no fit: F",
    WalkRank0 = "walk of rank 0",
    WalkRank1 = "walk of rank 1",
    WalkRank2 = "walk of rank 2",
    WalkRank3 = "walk of rank 3",
    WalkRank4 = "walk of rank 4",
    WalkRank5 = "walk of rank 5",
    WalkRank6 = "walk of rank 6",
    WalkRank7 = "walk of rank 7",
    WalkRank8 = "walk of rank 8",
    WalkRank9Up = "walk of rank 9 and more",
    WalkCutOne = "walk with one axis cut",
    WalkCutSeveral = "walk with several axes cut",
    WalkCutRank9Up = "walk of rank 9 and more with axis 0 cut",
}

fn refused(row: u32) -> Branch {
    match row {
        1 => Branch::Refused1,
        2 => Branch::Refused2,
        4 => Branch::Refused4,
        5 => Branch::Refused5,
        6 => Branch::Refused6,
        _ => unreachable!("row {row} refuses no layout"),
    }
}

/// What the original does with a layout.
pub struct Study {
    pub branches: BTreeSet<Branch>,
    /// The plan, unless the layout is refused or its cutting takes more steps.
    pub plan: Option<original::Plan>,
    /// Single steps of its cutting, and those of the unchanged Rust's.
    pub steps: [u64; 2],
}

/// The branches that a layout reaches, its cutting within so many steps.
pub fn branches(layout: &Layout, steps: u64) -> BTreeSet<Branch> {
    study(layout, steps).branches
}

/// The branches that a layout reaches, its cutting within so many steps, and
/// its plan.
///
/// # Panics
///
/// If a counted copy answers otherwise than the original.
pub fn study(layout: &Layout, steps: u64) -> Study {
    let mut found = BTreeSet::new();
    if let Some(row) = layout.refusal() {
        found.insert(refused(row));
        return Study {
            branches: found,
            plan: None,
            steps: [0; 2],
        };
    }
    let mut note = |branch: Branch, here: bool| {
        if here {
            found.insert(branch);
        }
    };
    let axes = Axes::of(layout);
    let (extents, sizes) = (&axes.extents, &layout.sizes);
    note(Branch::Wide, layout.wide());
    note(Branch::RankZero, layout.extents.is_empty());
    note(Branch::ZeroExtent, layout.extents.contains(&0));
    note(Branch::SizeZero, sizes.contains(&0));
    let ones = !layout.extents.is_empty() && extents[..] == [1];
    note(Branch::AllDropped, ones);
    note(Branch::TotalSmall, !axes.large());

    let all_strides = || layout.strides.iter().flatten();
    note(Branch::RanksZeroStride, all_strides().any(|&s| s == 0));
    note(Branch::RanksNegativeStride, all_strides().any(|&s| s < 0));
    note(
        Branch::RanksLeastStride,
        all_strides().any(|&s| s == isize::MIN),
    );
    let led = lead_first(layout);
    let (weights, seen) = original::probe::weights(&layout.extents, &led);
    let answer = original::compute_importance(&layout.extents, &led);
    assert_eq!(weights, answer, "the counted weights differ");
    if let Some((width, cap)) = seen.weights {
        let full = u64::from(64 - (layout.strides.len() as u64 + 1).leading_zeros());
        note(Branch::WidthFull, width == full && cap == u64::MAX);
        note(Branch::WidthNarrower, width < full && cap == u64::MAX);
        note(Branch::WidthOneCapped, cap != u64::MAX);
    }
    note(
        Branch::LeadMoved,
        layout.chosen.is_some_and(|chosen| chosen > 0),
    );
    let moved = axes.ordered_extents != layout.extents || axes.ordered_strides != layout.strides;
    note(Branch::OrderChanged, moved);
    let other = order_by_extent(layout);
    note(Branch::OrderByExtent, axes.large() && other);
    note(Branch::SmallAsGiven, !axes.large() && other);

    let ordered = rows(&axes.ordered_strides);
    let (fused, seen) = original::probe::fuse(&axes.ordered_extents, &ordered);
    assert_eq!(fused, axes.fused, "the counted fusing differs");
    let met = |event| seen.events.contains(&event);
    note(Branch::FuseBothZero, met(Event::FuseBothZero));
    note(Branch::FuseNegative, met(Event::FuseNegative));
    note(Branch::FuseBrokenStride, met(Event::FuseBrokenStride));
    note(Branch::FuseBrokenExtent, met(Event::FuseBrokenExtent));
    note(Branch::FuseBrokenProduct, met(Event::FuseBrokenProduct));
    note(Branch::FuseTotal, met(Event::FuseTotalAbove64Bits));

    let (plan, seen) = if axes.large() {
        let fit = fits(layout);
        let strides = rows(&axes.strides);
        let (blocks, seen) = original::probe::blocks(extents, &strides, sizes, fit, steps);
        if seen.capped {
            note(Branch::CutCapped, true);
            return Study {
                branches: found,
                plan: None,
                steps: [0; 2],
            };
        }
        let plan = plan(layout, axes.total);
        assert_eq!(blocks, plan.blocks, "the counted blocks differ");
        (plan, Some(seen))
    } else {
        (plan(layout, axes.total), None)
    };
    let mut taken = [0; 2];
    if let Some(seen) = seen {
        let old = still_branches(layout, &axes, &plan.blocks, steps, &mut note);
        taken = [seen.steps, old.steps];
        block_branches(layout, &axes, &seen, &plan.blocks, &mut note);
    }
    note(walk_rank(plan.extents.len()), true);
    let is_cut = |axis: &usize| plan.blocks[*axis] < plan.extents[*axis];
    let cut: Vec<usize> = (0..plan.extents.len()).filter(is_cut).collect();
    let tiled = plan.extents.len() <= 8;
    note(Branch::WalkCutOne, tiled && cut.len() == 1);
    note(Branch::WalkCutSeveral, tiled && cut.len() > 1);
    note(Branch::WalkCutRank9Up, !tiled && cut.first() == Some(&0));
    Study {
        branches: found,
        plan: Some(plan),
        steps: taken,
    }
}

/// Whether nobody moves along an axis: every stride there is 0.
fn is_still(strides: &[&[isize]], axis: usize) -> bool {
    strides.iter().all(|row| row[axis] == 0)
}

/// Ask 7 of document 02: the unchanged Rust on the same axes. It comes to the same
/// blocks, but for an axis that nobody moves along, which is whole now.
///
/// # Panics
///
/// If it does not.
fn still_branches(
    layout: &Layout,
    axes: &Axes,
    answer: &[usize],
    steps: u64,
    note: &mut impl FnMut(Branch, bool),
) -> unchanged::probe::Seen {
    let (extents, sizes) = (&axes.extents, &layout.sizes);
    let strides = rows(&axes.strides);
    let (old, seen) = unchanged::probe::blocks(extents, &strides, sizes, fits(layout), steps);
    let ruled = !original::model_exits(extents, &strides, sizes);
    let still = (0..extents.len()).any(|axis| is_still(&strides, axis));
    note(Branch::StillNone, ruled && !still);
    note(Branch::StillAxis, ruled && still);
    note(Branch::StillSlow, seen.capped);
    note(Branch::StillMoved, !seen.capped && old != answer);
    if !seen.capped {
        // No region and no product sees its block, so the others stay as they are.
        let whole = |axis: usize| match ruled && is_still(&strides, axis) {
            true => extents[axis],
            false => old[axis],
        };
        let expected: Vec<usize> = (0..old.len()).map(whole).collect();
        assert_eq!(answer, expected, "the unchanged Rust has other blocks");
    } else {
        assert!(ruled && still, "the unchanged Rust takes more steps");
    }
    if ruled && still {
        // It is the last axis, behind the first one cut, and its byte strides of 0 are
        // less than any span.
        let cut = original::reduced_block_sizes(extents, &strides, sizes).expect("the rule runs");
        let declined = original::declines_tiles(extents, &strides, sizes, &cut);
        assert!(
            !declined,
            "tiles declined beside an axis that nobody moves along"
        );
    }
    seen
}

/// Whether the unchanged Rust has another loop order: extents decide between axes
/// of equal weight, which it takes as they come.
pub fn order_by_extent(layout: &Layout) -> bool {
    let (extents, strides) = (&layout.extents, rows(&layout.strides));
    original::compute_order(extents, &strides, layout.chosen)
        != unchanged::compute_order(extents, &strides, layout.chosen)
}

/// The destination that blocks are fitted for, if they are.
pub fn fits(layout: &Layout) -> Option<usize> {
    let pointwise = layout.purpose == Purpose::Pointwise;
    layout.chosen.filter(|_| pointwise)
}

/// The branches of cutting, declining and fitting: `seen` is what the counted
/// copy has met, `answer` the original's blocks.
fn block_branches(
    layout: &Layout,
    axes: &Axes,
    seen: &Seen,
    answer: &[usize],
    note: &mut impl FnMut(Branch, bool),
) {
    let (extents, sizes) = (&axes.extents, &layout.sizes);
    let strides = rows(&axes.strides);
    let pointwise = layout.purpose == Purpose::Pointwise;
    let fit = fits(layout);
    let met = |event| seen.events.contains(&event);
    note(Branch::RegionAbove64Bits, met(Event::RegionAbove64Bits));

    let region = original::probe::region(extents, &strides, sizes);
    let within = region <= original::BLOCK_MEMORY_SIZE as u128;
    note(Branch::NoCutRegion, within);
    let Some(cut) = original::reduced_block_sizes(extents, &strides, sizes) else {
        let growing = strides.iter().all(|row| original::probe::increasing(row));
        note(
            Branch::NoCutGrowing,
            !within && growing && !sizes.contains(&0),
        );
        return;
    };
    note(Branch::KeptFirst, met(Event::KeptFirst));
    note(Branch::TailToOne, met(Event::TailToOne));
    note(Branch::Halved, met(Event::Halved));
    note(Branch::Lessened, met(Event::Lessened));
    note(Branch::NothingShortened, cut == *extents);

    let declined = original::declines_tiles(extents, &strides, sizes, &cut);
    let first_cut = (0..cut.len()).find(|&axis| cut[axis] < extents[axis]);
    let behind = first_cut.is_some_and(|axis| axis > 0);
    note(Branch::Declined, declined);
    note(
        Branch::DeclinedWideTail,
        declined && met(Event::SlabWideTail),
    );
    note(
        Branch::DeclinedSizeZero,
        declined && met(Event::SlabSizeZero),
    );
    note(Branch::KeptTiles, behind && !declined);
    note(Branch::KeptWidth, behind && met(Event::SlabWidth));
    note(Branch::KeptTailLine, behind && met(Event::SlabTailLine));
    note(Branch::KeptTailSpan, behind && met(Event::SlabTailSpan));
    if declined {
        return;
    }
    note(Branch::FitSetOne, met(Event::FitSetOne));
    note(Branch::FitGreatest, met(Event::FitGreatest));
    note(Branch::FitLoadWithin, met(Event::FitLoadWithin));
    note(Branch::FitSkipChosenZero, met(Event::FitSkipChosenZero));
    note(Branch::FitSkipNotEntering, met(Event::FitSkipNotEntering));
    note(Branch::FitSkipBlockOne, met(Event::FitSkipBlockOne));
    note(Branch::FitUnshortened, cut == *extents && *answer != cut);
    let other = layout.strides.len() != 2;
    note(Branch::NoFitUnchosen, pointwise && layout.chosen.is_none());
    note(Branch::NoFitOperands, fit.is_some() && other);
    note(Branch::NoFitFold, !pointwise);
}

fn walk_rank(rank: usize) -> Branch {
    match rank {
        0 => Branch::WalkRank0,
        1 => Branch::WalkRank1,
        2 => Branch::WalkRank2,
        3 => Branch::WalkRank3,
        4 => Branch::WalkRank4,
        5 => Branch::WalkRank5,
        6 => Branch::WalkRank6,
        7 => Branch::WalkRank7,
        8 => Branch::WalkRank8,
        _ => Branch::WalkRank9Up,
    }
}
