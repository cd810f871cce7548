//! Walking to the end: the library's steps beside the original's closure walk.
//! Single steps hand the length and the offsets of every block to a sum, as the
//! original's closure does beside them; many steps write them into two slices, and
//! so does the closure then.

use crate::layouts;
use crate::planning::empty_plan;
use crate::timing;
use port::gougelily::{self, Block, Plan, State};
use port::{parts, Flat};
use std::hint::black_box;
use strided_basic as original;
use tools::layout::Layout;

/// A plan with its own blocks, ready for both sides.
struct Case {
    plan: Plan,
    extents: Vec<usize>,
    blocks: Vec<usize>,
    strides: Vec<Vec<isize>>,
}

impl Case {
    fn of(layout: &Layout) -> Case {
        let mut plan = empty_plan();
        assert_eq!(gougelily::plan(&Flat::of(layout), &mut plan), 0);
        let rank = plan.rank[0];
        let row = |k: usize| {
            let strides = &plan.strides[k * 64..k * 64 + rank];
            strides.iter().map(|&stride| stride as isize).collect()
        };
        Case {
            extents: plan.extents[..rank].iter().map(|&e| e as usize).collect(),
            blocks: plan.blocks[..rank].iter().map(|&b| b as usize).collect(),
            strides: (0..plan.operands[0]).map(row).collect(),
            plan,
        }
    }

    /// The number of blocks.
    fn blocks(&self) -> usize {
        let mut blocks = 0;
        self.each(|_, _| blocks += 1);
        blocks
    }

    fn each(&self, mut f: impl FnMut(&[isize], usize)) {
        let starts = vec![0; self.strides.len()];
        original::for_each_inner_block_preordered(
            &self.extents,
            &self.blocks,
            &self.strides,
            &starts,
            |offsets, length, _| {
                f(offsets, length);
                Ok(())
            },
        )
        .expect("the closure does not fail");
    }

    fn original(&self) -> usize {
        let mut sum = 0usize;
        self.each(|offsets, length| {
            sum = sum.wrapping_mul(31).wrapping_add(length);
            for &offset in offsets {
                sum = sum.wrapping_add(offset as usize);
            }
        });
        sum
    }

    fn begun(&self) -> State {
        let mut state = State {
            ended: [0],
            counters: [0; 64],
            offsets: [0; 8],
        };
        let starts = [0; 8];
        let answer = gougelily::begin(&self.plan, &starts[..self.strides.len()], &mut state);
        assert_eq!(answer, 0, "starts of 0 are served");
        state
    }

    /// The walk to the end by single steps.
    fn steps(&self, step: impl Fn(&Plan, &mut State, &mut Block) -> i64) -> usize {
        let mut state = self.begun();
        let mut block = Block {
            counters: [0; 64],
            length: [0],
            offsets: [0; 8],
            strides: [0; 8],
        };
        let mut sum = 0usize;
        while step(black_box(&self.plan), &mut state, &mut block) == 1 {
            sum = sum.wrapping_mul(31).wrapping_add(block.length[0] as usize);
            for &offset in &block.offsets[..self.strides.len()] {
                sum = sum.wrapping_add(offset as usize);
            }
        }
        sum
    }

    /// Many steps in one call; the sum is taken if asked for.
    fn many(&self, records: &mut Records, summed: bool) -> usize {
        let mut state = self.begun();
        let (operands, mut sum) = (self.strides.len(), 0usize);
        while state.ended[0] == 0 {
            let plan = black_box(&self.plan);
            let (lengths, offsets) = (&mut records.lengths, &mut records.offsets);
            let count = gougelily::step_many(plan, &mut state, lengths, offsets);
            black_box(&mut *records);
            if summed {
                sum = records.sum(sum, count as usize, operands);
            }
        }
        sum
    }

    /// The original, its blocks written where many steps write them.
    fn written(&self, records: &mut Records) -> usize {
        let mut at = 0;
        self.each(|offsets, length| {
            records.lengths[at] = length as u64;
            let row = &mut records.offsets[at * offsets.len()..(at + 1) * offsets.len()];
            for (place, &offset) in row.iter_mut().zip(offsets) {
                *place = offset as i64;
            }
            at += 1;
            if at == MANY {
                black_box(&mut *records);
                at = 0;
            }
        });
        at
    }
}

/// The two slices that many steps fill.
struct Records {
    lengths: [u64; MANY],
    offsets: [i64; 8 * MANY],
}

impl Records {
    fn new() -> Records {
        Records {
            lengths: [0; MANY],
            offsets: [0; 8 * MANY],
        }
    }

    fn sum(&self, mut sum: usize, count: usize, operands: usize) -> usize {
        let records = self.offsets.chunks(operands).zip(&self.lengths);
        for (row, &length) in records.take(count) {
            sum = sum.wrapping_mul(31).wrapping_add(length as usize);
            for &offset in row {
                sum = sum.wrapping_add(offset as usize);
            }
        }
        sum
    }
}

/// Blocks of one call of many steps.
const MANY: usize = 1024;

/// A layout's times per block.
pub struct Row {
    pub name: String,
    pub blocks: usize,
    /// The original with the closure that writes, and many steps.
    pub written: f64,
    pub many: f64,
    /// The original with the closure that sums, and single steps: the library's, the
    /// one by value and the lent one.
    pub summed: f64,
    pub step: f64,
    pub by_value: f64,
    pub lent: f64,
}

pub fn times(runs: u64) -> Vec<Row> {
    let mut found = Vec::new();
    for named in layouts::walking() {
        // Small blocks, so that a walk has many.
        let mut case = Case::of(&named.layout);
        for axis in 0..case.blocks.len() {
            case.blocks[axis] = case.blocks[axis].min(8);
            case.plan.blocks[axis] = case.blocks[axis] as u64;
        }
        let blocks = case.blocks();
        let (mut first, mut second) = (Records::new(), Records::new());
        for sum in [
            case.steps(gougelily::step),
            case.steps(parts::step),
            case.steps(parts::step_lent),
            case.many(&mut first, true),
        ] {
            assert_eq!(case.original(), sum, "{}: other blocks", named.name);
        }
        let (summed, step) = timing::best(runs, &mut || case.original(), &mut || {
            case.steps(gougelily::step)
        });
        let (by_value, lent) = timing::best(runs, &mut || case.steps(parts::step), &mut || {
            case.steps(parts::step_lent)
        });
        let (written, many) = timing::best(runs, &mut || case.written(&mut first), &mut || {
            case.many(&mut second, false)
        });
        let each = |time: f64| time / blocks as f64;
        found.push(Row {
            name: named.name,
            blocks,
            written: each(written),
            many: each(many),
            summed: each(summed),
            step: each(step),
            by_value: each(by_value),
            lent: each(lent),
        });
    }
    found
}
