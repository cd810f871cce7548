//! Ask 7 of document 02: "The cost of such an axis shall say that it has none, and
//! cutting shall choose among the others. Its block remains the full extent. The
//! reference is from now on the Rust with such axes passed over in
//! last_argmax_weighted." The unchanged Rust stands beside it, on the same axes.

use strided_basic as original;
use strided_unchanged as unchanged;
use tools::answer::{plan, rows, Axes};
use tools::branches::{fits, study, Branch};
use tools::generate::{layout, Kind, Random};
use tools::layout::{Layout, Purpose};

const SEED: u64 = 7;
const COUNT: usize = 20_000;
const STEPS: u64 = 20_000;

/// The blocks of a layout's plan, those of the unchanged Rust on the same axes, and
/// how many single steps both take.
fn both(layout: &Layout) -> ([Vec<usize>; 2], [u64; 2]) {
    let axes = Axes::of(layout);
    let (extents, strides, sizes) = (&axes.extents, rows(&axes.strides), &layout.sizes);
    let fit = fits(layout);
    let (new, seen) = original::probe::blocks(extents, &strides, sizes, fit, STEPS);
    assert_eq!(new, plan(layout, axes.total).blocks);
    let (old, before) = unchanged::probe::blocks(extents, &strides, sizes, fit, STEPS);
    ([new, old], [seen.steps, before.steps])
}

fn of(purpose: Purpose, chosen: Option<usize>, sizes: &[usize], strides: &[[isize; 3]]) -> Layout {
    Layout {
        purpose,
        chosen,
        extents: vec![33, 16, 17],
        sizes: sizes.to_vec(),
        strides: strides.iter().map(|row| row.to_vec()).collect(),
    }
}

#[test]
fn the_axis_stays_whole_and_the_others_are_as_before() {
    let strides = [[0, 512, 1], [0, 1, 64]];
    let sum = of(Purpose::Fold, Some(0), &[64, 64], &strides);
    assert_eq!(both(&sum).0, [vec![16, 16, 33], vec![16, 16, 32]]);
    // the fit reads the new blocks by its old rule
    let copy = of(Purpose::Pointwise, Some(0), &[64, 64], &strides);
    assert_eq!(both(&copy).0, [vec![5, 1, 33], vec![5, 1, 32]]);
}

#[test]
fn an_axis_with_one_stride_of_0_is_cut_as_before() {
    // and so is one along which only an operand of size 0 moves
    for size in [1, 0] {
        let strides = [[0, 512, 1], [0, 1, 64], [1, 0, 0]];
        let given = of(Purpose::Pointwise, None, &[64, 64, size], &strides);
        let ([new, old], [steps, before]) = both(&given);
        assert_eq!((&new, steps), (&old, before), "{size}");
        assert!(new.iter().zip([17, 16, 33]).any(|(&b, e)| b < e), "{new:?}");
    }
}

#[test]
fn the_cost_says_none() {
    let strides: [&[isize]; 2] = [&[0, 0, 3, isize::MIN], &[0, 5, -4, isize::MAX]];
    let costs = original::compute_costs(&strides);
    assert_eq!(costs, [0, 1, 6, isize::MAX]);
    assert_eq!(unchanged::compute_costs(&strides), [1, 1, 6, isize::MAX]);
}

#[test]
fn seeded_layouts() {
    let mut random = Random::new(SEED);
    let (mut moved, mut without, mut most) = (0, 0, [0; 2]);
    for turn in 0..COUNT {
        let kind = [Kind::Block, Kind::Still][turn % 2];
        let layout = layout(&mut random, kind);
        // the study compares: without such an axis the blocks are the unchanged Rust's,
        // with one they differ in that axis alone
        let study = study(&layout, STEPS);
        let met = |branch| usize::from(study.branches.contains(&branch));
        moved += met(Branch::StillMoved);
        without += met(Branch::StillNone);
        // where an operand of size 0 moves alone the old rule holds, and may be slow
        if !layout.sizes.contains(&0) {
            for (most, steps) in most.iter_mut().zip(study.steps) {
                *most = steps.max(*most);
            }
        }
    }
    println!("{moved} plans moved, {without} without such an axis, single steps at most {most:?}");
    assert!(moved > 1000, "{moved}");
    assert!(without > 5000, "{without}");
}
