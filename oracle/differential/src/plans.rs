//! Plans: gougelily_plan and plan by value against pointwise_plan and fold_plan, for each layout
//! with a chosen operand, with none, and as a fold.

use crate::compare::{caught, same, same_array, Counts, Task};
use crate::limits::{limits, LAYOUT_LIMITS, WALK_LIMITS};
use crate::parts::with_wrong_count;
use crate::values::{held_plan, original_plan};
use port::gougelily::{self, Plan};
use port::{parts, Flat};
use std::fmt::Write as _;
use strided_basic as original;
use tools::answer::{rows, Axes};
use tools::branches::{fits, study, Branch};
use tools::generate::{Kind, Random};
use tools::layout::{Layout, Purpose};
use tools::model;

/// One layout of so many is also handed over with a wrong number of strides.
const WRONG_COUNTS: u64 = 16;

/// What is counted beside the branches.
const ROW_3: &str = "refused by row 3, a stride too many or too few";

/// The plan of a layout on which the original takes too many single steps.
pub fn by_model(layout: &Layout) -> original::Plan {
    let axes = Axes::of(layout);
    let strides = rows(&axes.strides);
    let blocks = model::blocks(&axes.extents, &strides, &layout.sizes, fits(layout));
    original::Plan {
        blocks,
        extents: axes.extents,
        strides: axes.strides,
    }
}

/// Fails unless the port plans the layout so, or refuses it with this number. Both
/// entries are asked, in lent arrays and by value.
pub fn same_plan(flat: &Flat, number: u32, expected: &Plan) -> Result<(), String> {
    let mut found = held_plan();
    let code = gougelily::plan(flat, &mut found);
    same("code of plan", code, -i64::from(number))?;
    same_numbers(&found, expected)?;
    let mut found = held_plan();
    let (extents, blocks) = (&mut found.extents, &mut found.blocks);
    let (rank, operands) = (&mut found.rank, &mut found.operands);
    let code = parts::plan(flat, rank, operands, extents, blocks, &mut found.strides);
    same("code of plan by value", code, u64::from(number))?;
    same_numbers(&found, expected).map_err(|error| format!("by value, {error}"))
}

fn same_numbers(found: &Plan, expected: &Plan) -> Result<(), String> {
    same("rank", found.rank, expected.rank)?;
    same("operands", found.operands, expected.operands)?;
    same_array("plan extents", &found.extents, &expected.extents)?;
    same_array("blocks", &found.blocks, &expected.blocks)?;
    same_array("plan strides", &found.strides, &expected.strides)
}

/// The layout for each purpose: the chosen operand is its own, or one drawn.
pub fn for_each_purpose(layout: &Layout, random: &mut Random) -> [Layout; 3] {
    let last = layout.strides.len().max(1) - 1;
    let chosen = layout.chosen.unwrap_or_else(|| random.within(0, last));
    let with = |purpose, chosen| Layout {
        purpose,
        chosen,
        ..layout.clone()
    };
    [
        with(Purpose::Pointwise, Some(chosen)),
        with(Purpose::Pointwise, None),
        with(Purpose::Fold, Some(chosen)),
    ]
}

/// A layout as the port takes it. Any kind but 0 and 1 is a fold, and where no
/// operand is chosen its number is not looked at.
pub fn handed(layout: &Layout, random: &mut Random) -> Flat {
    let mut flat = Flat::of(layout);
    match flat.kind {
        0 => flat.chosen = random.next_number(),
        2 => flat.kind = random.pick(&[2, 2, 3, u64::MAX]),
        _ => {}
    }
    flat
}

fn compare_layout(
    layout: &Layout,
    steps: u64,
    random: &mut Random,
    met: &mut Counts,
    most: &mut [u64; 2],
) -> Result<(), String> {
    let flat = handed(layout, random);
    for name in limits(layout, layout.refusal()) {
        met.add(name);
    }
    let study = caught(|| study(layout, steps))?;
    for (most, steps) in most.iter_mut().zip(study.steps) {
        *most = steps.max(*most);
    }
    match (layout.refusal(), study.plan) {
        (Some(row), _) => same_plan(&flat, row, &held_plan())?,
        (None, Some(plan)) => same_plan(&flat, 0, &original_plan(&plan))?,
        (None, None) => same_plan(&flat, 0, &original_plan(&caught(|| by_model(layout))?))?,
    }
    for branch in study.branches {
        met.add_at(branch as usize);
    }
    Ok(())
}

/// Compares the layouts of each kind, and tells how often each branch was met.
pub fn compare(task: &Task, report: &mut String) -> Result<(), String> {
    let names = Branch::ALL.iter().map(|branch| branch.name());
    let names = names.chain([ROW_3]).chain(WALK_LIMITS);
    let mut met = Counts::of(names.chain(LAYOUT_LIMITS));
    // Single steps of the cutting rule, and those of the unchanged Rust's.
    let mut most = [0; 2];
    for &(name, kind) in &task.kinds {
        task.layouts(kind, |turn, layout, random| {
            for layout in for_each_purpose(layout, random) {
                let told = |error| format!("{error}\n{layout}from");
                compare_layout(&layout, task.steps, random, &mut met, &mut most).map_err(told)?;
            }
            if turn % WRONG_COUNTS == 0 {
                let more = turn % (2 * WRONG_COUNTS) == 0;
                let (flat, number) = with_wrong_count(layout, more);
                let told = |error| format!("with {} strides, {error}", flat.strides.len());
                same_plan(&flat, number, &held_plan()).map_err(told)?;
                if number == 3 {
                    met.add(ROW_3);
                }
            }
            Ok(())
        })?;
        let count = task.count;
        writeln!(report, "{count:10}  {name}, each for 3 purposes").expect("a String takes all");
    }
    met.tell(report);
    let [new, old] = most;
    writeln!(
        report,
        "{new:10}  single steps of the cutting rule at most, {old} of the unchanged Rust's"
    )
    .expect("a String takes all");
    let wide = task.kinds.iter().any(|&(_, kind)| kind == Kind::Wide);
    if wide {
        met.require_one("plans", Branch::Wide.name())?;
    }
    if task.whole {
        // Layouts on which the original is slow are compared with the model.
        let slow = [Branch::CutCapped, Branch::StillSlow].map(Branch::name);
        met.require("plans", &slow)?;
    }
    Ok(())
}
