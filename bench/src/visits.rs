//! A visit: the library's `gougelily_visit` beside what it stands for, a
//! `gougelily_step` and a `gougelily_original_index` of the block's counters. The
//! original has no counterpart.

use crate::finding::{begun, STEPS};
use crate::layouts;
use crate::planning::empty_plan;
use crate::timing;
use port::gougelily::{self, Block, Plan, State, Told};
use port::Flat;
use std::hint::black_box;

/// A layout's times, for each block.
pub struct Row {
    pub name: String,
    pub operands: usize,
    /// The axes of its plan.
    pub rank: usize,
    pub apart: f64,
    pub visit: f64,
}

/// Where a block and its index are told.
struct Seen {
    number: [u64; 1],
    block: Block,
    told: Told,
}

fn nothing() -> Seen {
    Seen {
        number: [0],
        block: Block {
            counters: [0; 64],
            length: [0],
            offsets: [0; 8],
            strides: [0; 8],
        },
        told: Told {
            count: [0],
            index: [0; 64],
        },
    }
}

/// The first visits of a walk, and how many there are.
fn visits(flat: &Flat, plan: &Plan, first: &State, seen: &mut Seen) -> usize {
    let mut state = first.clone();
    let mut count = 0;
    while count < STEPS {
        let (number, block, told) = (&mut seen.number, &mut seen.block, &mut seen.told);
        if gougelily::visit(flat, black_box(plan), &mut state, number, block, told) != 1 {
            break;
        }
        assert_eq!(seen.number[0], count as u64);
        black_box(&seen.told);
        count += 1;
    }
    count
}

/// The same by steps and index finding.
fn apart(flat: &Flat, plan: &Plan, first: &State, seen: &mut Seen) -> usize {
    let mut state = first.clone();
    let mut count = 0;
    while count < STEPS && gougelily::step(black_box(plan), &mut state, &mut seen.block) == 1 {
        let counters = &seen.block.counters[..plan.rank[0]];
        assert_eq!(gougelily::original_index(flat, counters, &mut seen.told), 0);
        black_box(&seen.told);
        count += 1;
    }
    count
}

pub fn times(runs: u64) -> Vec<Row> {
    let mut found = Vec::new();
    for named in layouts::finding() {
        let flat = Flat::of(&named.layout);
        let mut plan = empty_plan();
        assert_eq!(gougelily::plan(&flat, &mut plan), 0);
        let rank = plan.rank[0];
        // small blocks, so that a walk has many
        for block in &mut plan.blocks[..rank] {
            *block = (*block).min(8);
        }
        let first = begun(&plan);
        let (mut seen, mut others) = (nothing(), nothing());
        let count = visits(&flat, &plan, &first, &mut seen);
        assert_eq!(count, apart(&flat, &plan, &first, &mut others));
        assert_eq!(seen.told.index, others.told.index, "{}", named.name);
        let (apart, visit) = timing::best(
            runs,
            &mut || apart(&flat, &plan, &first, &mut others),
            &mut || visits(&flat, &plan, &first, &mut seen),
        );
        found.push(Row {
            name: named.name,
            operands: flat.sizes.len(),
            rank,
            apart: apart / count as f64,
            visit: visit / count as f64,
        });
    }
    found
}
