//! Ask 9 of document 02: "On equal weight the larger extent comes first, and on
//! equal extents the lower axis. Plans of totals up to 1,024 take no order and do
//! not notice." The unchanged Rust stands beside the one with this tie.

use std::cmp::Reverse;
use strided_basic as original;
use strided_unchanged as unchanged;
use tools::answer::{lead_first, plan, rows};
use tools::branches::order_by_extent;
use tools::generate::{layout, Kind, Random};
use tools::layout::{Layout, Purpose};

const SEED: u64 = 9;
const COUNT: usize = 4000;
const KINDS: [Kind; 4] = [Kind::Order, Kind::Fuse, Kind::Block, Kind::Small];

/// Seeded layouts that are not refused.
fn layouts() -> impl Iterator<Item = Layout> {
    KINDS.into_iter().flat_map(|kind| {
        let mut random = Random::new(SEED);
        let drawn = (0..COUNT).map(move |_| layout(&mut random, kind));
        drawn.filter(|layout| layout.refusal().is_none())
    })
}

/// Extents, blocks and strides of a plan.
type Numbers = (Vec<usize>, Vec<usize>, Vec<Vec<isize>>);

/// The plan of a layout, and that of the unchanged Rust.
fn plans(layout: &Layout) -> [Numbers; 2] {
    let (extents, sizes) = (&layout.extents, &layout.sizes);
    let strides = rows(&layout.strides);
    let total = original::total_len(extents).expect("row 5 keeps the total");
    let new = plan(layout, total);
    let old = match (layout.purpose, layout.chosen) {
        (Purpose::Fold, Some(chosen)) => {
            unchanged::fold_plan(extents, &strides, chosen, sizes, total)
        }
        (_, chosen) => unchanged::pointwise_plan(extents, &strides, chosen, sizes, total),
    };
    [
        (new.extents, new.blocks, new.strides),
        (old.extents, old.blocks, old.strides),
    ]
}

/// A sum into one cell: operands 0 and 1 lie across each other, so both axes weigh
/// the same.
fn crossed(second: usize) -> Layout {
    Layout {
        purpose: Purpose::Fold,
        chosen: Some(2),
        extents: vec![4, second],
        sizes: vec![8; 3],
        strides: vec![vec![1, 4], vec![second as isize, 1], vec![0, 0]],
    }
}

#[test]
fn the_longer_of_two_equally_weighty_axes_runs_inside() {
    let [new, old] = plans(&crossed(257));
    let strides = vec![vec![4, 1], vec![1, 257], vec![0, 0]];
    assert_eq!(new, (vec![257, 4], vec![257, 4], strides));
    assert_eq!(old, (vec![4, 257], vec![4, 257], crossed(257).strides));
}

#[test]
fn a_total_of_1024_does_not_notice() {
    let given = crossed(256);
    assert!(order_by_extent(&given));
    for plan in plans(&given) {
        let (extents, strides) = (given.extents.clone(), given.strides.clone());
        assert_eq!(plan, (extents.clone(), extents, strides));
    }
}

#[test]
fn weight_then_extent_then_axis() {
    let order = original::compute_order(&[3, 9, 5, 9], &[&[2, 2, 1, -2]], None);
    assert_eq!(order, [2, 1, 3, 0]);
    let (mut axes, mut others) = (0, 0);
    for layout in layouts() {
        let extents = &layout.extents;
        let order = original::compute_order(extents, &rows(&layout.strides), layout.chosen);
        let weights = original::compute_importance(extents, &lead_first(&layout));
        let mut sorted: Vec<usize> = (0..extents.len()).collect();
        sorted.sort_by_key(|&axis| (Reverse(weights[axis]), Reverse(extents[axis]), axis));
        assert_eq!(order, sorted, "{layout}");
        axes += order.len();
        others += usize::from(order_by_extent(&layout));
    }
    assert!(axes > 100_000, "{axes}");
    assert!(others > 1000, "{others}");
}

#[test]
fn small_plans_do_not_notice() {
    let mut unnoticed = 0;
    for layout in layouts() {
        let total = original::total_len(&layout.extents).expect("row 5 keeps the total");
        if total <= original::SMALL_TENSOR_THRESHOLD {
            let [new, old] = plans(&layout);
            assert_eq!(new, old, "{layout}");
            unnoticed += usize::from(order_by_extent(&layout));
        }
    }
    assert!(unnoticed > 1000, "{unnoticed}");
}
