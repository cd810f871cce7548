//! The model of cutting answers as the original on seeded layouts, and on the
//! slow layouts with their long axes shortened.

use tools::answer::{rows, Axes};
use tools::branches::{fits, study};
use tools::generate::{layout, Kind, Random};
use tools::layout::{read_all, Layout, Request};
use tools::model;
use tools::record::SLOW;

/// Compares the blocks of a layout that is ordered and cut; false if it is not
/// or if the original takes more steps.
fn compared(layout: &Layout, steps: u64) -> bool {
    let Some(plan) = study(layout, steps).plan else {
        return false;
    };
    let axes = Axes::of(layout);
    if !axes.large() {
        return false;
    }
    let strides = rows(&axes.strides);
    let blocks = model::blocks(&axes.extents, &strides, &layout.sizes, fits(layout));
    assert_eq!(blocks, plan.blocks, "\n{layout}");
    true
}

#[test]
fn seeded_layouts() {
    let mut random = Random::new(7);
    let kinds = [
        (Kind::Block, 9_000),
        (Kind::Still, 9_000),
        (Kind::Order, 100),
        (Kind::Fuse, 100),
        (Kind::Wide, 5_000),
    ];
    for (kind, least) in kinds {
        let drawn = (0..10_000).map(|_| layout(&mut random, kind));
        let count = drawn.filter(|layout| compared(layout, 20_000)).count();
        assert!(count >= least, "{kind:?}: {count}");
    }
}

#[test]
fn slow_layouts_shortened() {
    for (_, request) in read_all(SLOW).expect("slow.txt is in the text form") {
        let Request::Layout(slow) = request else {
            panic!("no layout:\n{request}");
        };
        for length in [2000, 2001, 4096, 30_000] {
            let layout = model::shortened(&slow, length);
            assert!(compared(&layout, 1_000_000), "\n{layout}");
        }
    }
}
