//! The answers: what the original says of a layout or of a walk request, as
//! lines of text, and the loop that answers a whole input.

use crate::layout::{write_list, Layout, Purpose, Reader, Request, Walk};
use std::fmt::{Display, Write as _};
use std::io::{BufReader, Read, Write};
use std::panic::{catch_unwind, AssertUnwindSafe};
use strided_basic as original;

/// How far an answer goes.
#[derive(Clone, Copy, Debug)]
pub struct Limits {
    /// The most single steps of the cutting rule.
    pub steps: u64,
    /// The most blocks of a walk.
    pub blocks: u64,
    /// Whether the walk of a plan is told.
    pub walk: bool,
    /// Whether only ranks, weights and order are told.
    pub parts: bool,
}

impl Default for Limits {
    fn default() -> Self {
        Limits {
            steps: 100_000,
            blocks: 4096,
            walk: true,
            parts: false,
        }
    }
}

/// Rows of numbers as the original takes them.
pub fn rows(strides: &[Vec<isize>]) -> Vec<&[isize]> {
    strides.iter().map(Vec::as_slice).collect()
}

/// The axes on their way to the plan: in the order they are fused in, and
/// after fusing. All by the original's functions.
pub struct Axes {
    pub total: usize,
    pub ordered_extents: Vec<usize>,
    pub ordered_strides: Vec<Vec<isize>>,
    pub fused: Vec<usize>,
    pub extents: Vec<usize>,
    pub strides: Vec<Vec<isize>>,
}

impl Axes {
    /// The axes of a layout that document 01 does not refuse.
    pub fn of(layout: &Layout) -> Axes {
        let given = rows(&layout.strides);
        let total = original::total_len(&layout.extents).expect("row 5 keeps the total");
        let order = if total > original::SMALL_TENSOR_THRESHOLD {
            original::compute_order(&layout.extents, &given, layout.chosen)
        } else {
            (0..layout.extents.len()).collect()
        };
        let ordered_extents: Vec<usize> = order.iter().map(|&axis| layout.extents[axis]).collect();
        let in_order = |row: &Vec<isize>| order.iter().map(|&axis| row[axis]).collect();
        let ordered_strides: Vec<Vec<isize>> = layout.strides.iter().map(in_order).collect();
        let fused = original::fuse_dims(&ordered_extents, &rows(&ordered_strides));
        let (extents, strides) = original::compress_dims(&fused, &rows(&ordered_strides));
        Axes {
            total,
            ordered_extents,
            ordered_strides,
            fused,
            extents,
            strides,
        }
    }

    /// Whether the plan is made by ordering and cutting.
    pub fn large(&self) -> bool {
        self.total > original::SMALL_TENSOR_THRESHOLD
    }
}

/// The strides with the lead's row moved to the front, as `compute_order` does.
pub fn lead_first(layout: &Layout) -> Vec<&[isize]> {
    let mut led = rows(&layout.strides);
    let lead = led.remove(layout.chosen.unwrap_or(0));
    led.insert(0, lead);
    led
}

/// The original's plan.
pub fn plan(layout: &Layout, total: usize) -> original::Plan {
    let (extents, sizes) = (&layout.extents, &layout.sizes);
    let strides = rows(&layout.strides);
    match layout.purpose {
        Purpose::Pointwise => {
            original::pointwise_plan(extents, &strides, layout.chosen, sizes, total)
        }
        Purpose::Fold => {
            let chosen = layout.chosen.expect("F has a chosen operand");
            original::fold_plan(extents, &strides, chosen, sizes, total)
        }
    }
}

/// The answer to a request, with the line `.` at its end.
pub fn answer(request: &Request, limits: &Limits) -> String {
    let run = || match request {
        Request::Layout(layout) => layout_answer(layout, limits),
        Request::Walk(walk) => walk_answer(walk, limits),
    };
    let mut text = catch_unwind(AssertUnwindSafe(run)).unwrap_or_else(|panic| {
        let message = panic.downcast_ref::<String>().cloned();
        let message = message.or(panic.downcast_ref::<&str>().map(|text| text.to_string()));
        let message = message.unwrap_or_default().replace('\n', " ");
        format!("panic,{message}\n")
    });
    text.push_str(".\n");
    text
}

/// Appends a line: a word, then the numbers.
fn line<T: Display>(out: &mut String, word: &str, list: impl IntoIterator<Item = T>) {
    out.push_str(word);
    write_list(out, list).expect("a String takes all");
    out.push('\n');
}

fn layout_answer(layout: &Layout, limits: &Limits) -> String {
    let mut out = String::new();
    if let Some(row) = layout.refusal() {
        line(&mut out, "R", [row]);
        return out;
    }
    let given = rows(&layout.strides);
    for (operand, row) in given.iter().enumerate() {
        line(
            &mut out,
            &format!("ranks,{operand}"),
            original::index_order(row),
        );
    }
    let weights = original::compute_importance(&layout.extents, &lead_first(layout));
    line(&mut out, "weights", weights);
    let order = original::compute_order(&layout.extents, &given, layout.chosen);
    line(&mut out, "order", order);
    if limits.parts {
        return out;
    }
    let axes = Axes::of(layout);
    let strides = rows(&axes.strides);
    line(&mut out, "fused", &axes.fused);
    line(&mut out, "costs", original::compute_costs(&strides));
    let region = original::probe::region(&axes.extents, &strides, &layout.sizes);
    line(&mut out, "region", [region]);
    if axes.large() {
        let seen = original::probe::cut(&axes.extents, &strides, &layout.sizes, limits.steps);
        if seen.capped {
            line(&mut out, "cap", [limits.steps]);
            return out;
        }
    }
    let plan = plan(layout, axes.total);
    assert_eq!(plan.extents, axes.extents, "the plan has other axes");
    assert_eq!(plan.strides, axes.strides, "the plan has other strides");
    line(&mut out, "K", [plan.extents.len()]);
    for axis in 0..plan.extents.len() {
        let head = format!("A,{axis},{},{}", plan.extents[axis], plan.blocks[axis]);
        line(&mut out, &head, plan.strides.iter().map(|row| row[axis]));
    }
    if limits.walk {
        let walk = Walk {
            extents: plan.extents,
            blocks: plan.blocks,
            starts: vec![0; layout.strides.len()],
            strides: plan.strides,
        };
        blocks(&mut out, &walk, limits.blocks);
    }
    out
}

fn walk_answer(walk: &Walk, limits: &Limits) -> String {
    let mut out = String::new();
    if let Some(row) = walk.refusal() {
        line(&mut out, "R", [row]);
    } else if walk.spins(limits.steps) {
        line(&mut out, "cap", [limits.steps]);
    } else {
        blocks(&mut out, walk, limits.blocks);
    }
    out
}

/// Appends the blocks of the original's walk, at most so many, and its end.
fn blocks(out: &mut String, walk: &Walk, most: u64) {
    let (mut count, mut cells) = (0u64, 0u128);
    let ended = original::for_each_inner_block_preordered(
        &walk.extents,
        &walk.blocks,
        &walk.strides,
        &walk.starts,
        |offsets, length, inner| {
            if count == most {
                return Err(original::StridedError::StrideLengthMismatch);
            }
            if walk.extents.is_empty() {
                assert!(inner.is_empty(), "strides at rank 0");
            } else {
                let first = walk.strides.iter().map(|row| &row[0]);
                assert!(inner.iter().eq(first), "strides other than those of axis 0");
            }
            line(out, &format!("B,{count},{length}"), offsets);
            count += 1;
            cells += length as u128;
            Ok(())
        },
    );
    match ended {
        Ok(()) => writeln!(out, "Z,{count},{cells}").expect("a String takes all"),
        Err(_) => out.push_str("more\n"),
    }
}

/// Keeps a panic of the original, which becomes a line of the answer, off
/// standard error.
pub fn silence_panics() {
    std::panic::set_hook(Box::new(|_| {}));
}

/// Answers every request of the input. Output is flushed whenever no further
/// input waits, so that a program may ask and read in turn.
pub fn serve(input: impl Read, mut output: impl Write, limits: &Limits) -> Result<(), String> {
    let unwritable = |error| format!("the output cannot be written: {error}");
    let mut reader = Reader::new(BufReader::with_capacity(1 << 16, input));
    loop {
        if reader.input().buffer().is_empty() {
            output.flush().map_err(unwritable)?;
        }
        match reader.request() {
            Ok(Some(request)) => {
                let text = answer(&request, limits);
                output.write_all(text.as_bytes()).map_err(unwritable)?;
            }
            Ok(None) => return output.flush().map_err(unwritable),
            Err(error) => {
                output.flush().map_err(unwritable)?;
                return Err(error);
            }
        }
    }
}
