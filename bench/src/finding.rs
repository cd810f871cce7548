//! Index finding, both ways, and single steps: the library's
//! `gougelily_original_index`, `gougelily_plan_index` and `gougelily_step`. The
//! original has no index finding, and its walk goes to the end, which at rank 64
//! takes too long; so these are plain times, beside that of a plan.

use crate::layouts;
use crate::planning::empty_plan;
use crate::timing;
use port::gougelily::{self, Block, Plan, State, Told};
use port::Flat;
use std::hint::black_box;

/// A layout's times.
pub struct Row {
    pub name: String,
    pub operands: usize,
    /// The axes of its plan.
    pub rank: usize,
    pub original: f64,
    pub in_plan: f64,
    pub step: f64,
    pub plan: f64,
}

/// Steps from a walk's beginning, so that one walk is long enough.
pub const STEPS: usize = 64;

pub fn begun(plan: &Plan) -> State {
    let mut state = State {
        ended: [0],
        counters: [0; 64],
        offsets: [0; 8],
    };
    let answer = gougelily::begin(plan, &[0; 8][..plan.operands[0]], &mut state);
    assert_eq!(answer, 0, "starts of 0 are served");
    state
}

/// The first steps of a walk, and how many there are.
fn steps(plan: &Plan, first: &State) -> usize {
    let mut state = first.clone();
    let mut block = Block {
        counters: [0; 64],
        length: [0],
        offsets: [0; 8],
        strides: [0; 8],
    };
    let mut count = 0;
    while count < STEPS && gougelily::step(black_box(plan), &mut state, &mut block) == 1 {
        black_box(&block);
        count += 1;
    }
    count
}

pub fn times(runs: u64) -> Vec<Row> {
    let mut found = Vec::new();
    for named in layouts::finding() {
        let flat = Flat::of(&named.layout);
        let mut plan = empty_plan();
        assert_eq!(gougelily::plan(&flat, &mut plan), 0);
        let rank = plan.rank[0];
        // an index in the middle, there and back
        let counters: Vec<u64> = plan.extents[..rank].iter().map(|&e| e * 3 / 5).collect();
        let mut told = Told {
            count: [0],
            index: [0; 64],
        };
        assert_eq!(gougelily::original_index(&flat, &counters, &mut told), 0);
        let index = told.index[..told.count[0]].to_vec();
        assert_eq!(gougelily::plan_index(&flat, &index, &mut told), 0);
        assert_eq!(told.index[..told.count[0]], counters, "{}", named.name);
        // small blocks, so that a walk has many
        let mut walked = plan.clone();
        for block in &mut walked.blocks[..rank] {
            *block = (*block).min(8);
        }
        let first = begun(&walked);
        let count = steps(&walked, &first);
        let mut second = told.clone();
        let (original, in_plan) = timing::best(
            runs,
            &mut || gougelily::original_index(black_box(&flat), &counters, &mut told) as usize,
            &mut || gougelily::plan_index(black_box(&flat), &index, &mut second) as usize,
        );
        let (step, planning) = timing::best(runs, &mut || steps(&walked, &first), &mut || {
            gougelily::plan(black_box(&flat), &mut plan) as usize
        });
        found.push(Row {
            name: named.name,
            operands: flat.sizes.len(),
            rank,
            original,
            in_plan,
            step: step / count as f64,
            plan: planning,
        });
    }
    found
}
