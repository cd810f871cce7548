//! Planning: the library's `gougelily_plan`, and planning by value, beside the
//! original's `total_len` and `pointwise_plan` or `fold_plan`.

use crate::layouts;
use crate::timing;
use port::{gougelily, parts, Flat};
use std::hint::black_box;
use strided_basic as original;
use tools::answer::rows;
use tools::layout::{Layout, Purpose};

/// A layout, ready for both sides.
pub struct Case<'a> {
    layout: &'a Layout,
    strides: Vec<&'a [isize]>,
    flat: Flat,
    plan: gougelily::Plan,
}

impl<'a> Case<'a> {
    pub fn of(layout: &'a Layout) -> Case<'a> {
        Case {
            layout,
            strides: rows(&layout.strides),
            flat: Flat::of(layout),
            plan: empty_plan(),
        }
    }

    pub fn original(&self) -> usize {
        let layout = black_box(self.layout);
        let fold = layout.purpose == Purpose::Fold;
        original::with_plan(
            &layout.extents,
            &self.strides,
            layout.chosen,
            fold,
            &layout.sizes,
            |extents, strides, blocks| {
                black_box(strides);
                extents.len() + blocks[0]
            },
        )
    }

    pub fn port(&mut self) -> usize {
        let answer = gougelily::plan(black_box(&self.flat), &mut self.plan);
        assert_eq!(answer, 0, "the layouts are served");
        self.plan.rank[0] + self.plan.blocks[0] as usize
    }

    /// Planning by the entry that returns the plan by value.
    pub fn by_value(&mut self) -> usize {
        let plan = &mut self.plan;
        let answer = parts::plan(
            black_box(&self.flat),
            &mut plan.rank,
            &mut plan.operands,
            &mut plan.extents,
            &mut plan.blocks,
            &mut plan.strides,
        );
        assert_eq!(answer, 0, "the layouts are served");
        self.plan.rank[0] + self.plan.blocks[0] as usize
    }
}

pub fn empty_plan() -> gougelily::Plan {
    gougelily::Plan {
        rank: [0],
        operands: [0],
        extents: [0; 64],
        blocks: [0; 64],
        strides: [0; 512],
    }
}

/// A layout's times on both sides.
pub struct Row {
    pub name: String,
    pub purpose: &'static str,
    pub original: f64,
    pub port: f64,
    pub by_value: f64,
}

/// Every layout as a copy and as a sum.
pub fn layouts() -> Vec<(String, &'static str, Layout)> {
    let mut all = Vec::new();
    for named in layouts::planning() {
        let sum = layouts::fold(&named.layout);
        all.push((named.name.clone(), "P", named.layout));
        all.push((named.name, "F", sum));
    }
    all
}

pub fn times(runs: u64) -> Vec<Row> {
    let mut found = Vec::new();
    for (name, purpose, layout) in layouts() {
        let first = Case::of(&layout);
        let mut second = Case::of(&layout);
        assert_eq!(first.original(), second.port(), "{name}: another plan");
        assert_eq!(first.original(), second.by_value(), "{name}: another plan");
        let (original, port) = timing::best(runs, &mut || first.original(), &mut || second.port());
        let by_value = timing::alone(runs, &mut || second.by_value());
        found.push(Row {
            name,
            purpose,
            original,
            port,
            by_value,
        });
    }
    found
}
