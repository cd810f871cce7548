//! The recorded answers through the port: every line that it can answer is made
//! again and compared with the recorded text. Where the original takes too many
//! single steps (slow.txt), the plan is compared with the model, and on shortened
//! copies with the original.

use crate::compare::{same, Counts, Task};
use crate::plans::{by_model, same_plan};
use crate::values::{held_block, held_plan, held_state, original_plan, plan_of};
use crate::values::{planned, starts_of};
use port::gougelily;
use port::{parts, Flat};
use std::fmt::{Display, Write as _};
use std::time::Instant;
use strided_basic as original;
use tools::answer::rows;
use tools::branches::study;
use tools::layout::{read_all, write_list, Layout, Request, Walk};
use tools::model;
use tools::record::{LIMITS, SLOW};

const FILES: [(&str, &str); 2] = [
    ("answers.txt", include_str!("../../recorded/answers.txt")),
    ("walks.txt", include_str!("../../recorded/walks.txt")),
];

const COUNTED: [&str; 18] = [
    "layouts",
    "walks",
    "lines R",
    "lines ranks",
    "lines weights",
    "lines order",
    "lines fused",
    "lines costs",
    "lines region, which the port does not answer",
    "lines cap of a layout, compared with the model",
    "lines K",
    "lines A",
    "lines B",
    "lines Z",
    "lines more",
    "slow layouts, compared with the model",
    "slow layouts shortened, compared with the original",
    "slow plans within the region",
];

/// Lengths of the long axes of slow layouts on which the original comes back.
const SHORTENED: [usize; 4] = [2000, 2001, 4096, 30_000];
/// Single steps that it takes there at most.
const STEPS: u64 = 1_000_000;

/// A recorded case: the number of its first line, its request, and its answer
/// without the line `.` at the end.
struct Case {
    line: usize,
    request: Request,
    answer: Vec<&'static str>,
}

/// The cases of a recorded file.
fn cases(text: &'static str) -> Result<Vec<Case>, String> {
    let mut cases = Vec::new();
    let (mut request, mut answer, mut first) = (String::new(), Vec::new(), 0);
    for (number, line) in text.lines().enumerate() {
        let word = line.split(',').next().expect("a first field");
        if line == "." {
            let read = read_all(&request)?.pop();
            let (_, read) = read.ok_or_else(|| format!("line {number}: no request"))?;
            cases.push(Case {
                line: first,
                request: read,
                answer: std::mem::take(&mut answer),
            });
            request.clear();
        } else if line.starts_with('#') || ["L", "E", "O", "W", "S"].contains(&word) {
            if request.is_empty() {
                first = number + 1;
            }
            request.push_str(line);
            request.push('\n');
        } else {
            answer.push(line);
        }
    }
    Ok(cases)
}

/// Appends a line: a word, then the numbers.
fn line<T: Display>(lines: &mut Vec<String>, word: &str, list: impl IntoIterator<Item = T>) {
    let mut text = word.to_string();
    write_list(&mut text, list).expect("a String takes all");
    lines.push(text);
}

/// The port's lines for a walk: at most so many blocks, and its end.
fn walk_lines(lines: &mut Vec<String>, walk: &Walk) -> Result<(), String> {
    let plan = plan_of(walk, 0);
    let mut state = held_state();
    let code = gougelily::begin(&plan, &starts_of(walk), &mut state);
    if code < 0 {
        line(lines, "R", [-code]);
        return Ok(());
    }
    let (mut count, mut cells) = (0, 0u128);
    loop {
        let mut block = held_block();
        match gougelily::step(&plan, &mut state, &mut block) {
            0 => break,
            code => same("code of step", code, 1)?,
        }
        if count == LIMITS.blocks {
            line::<u64>(lines, "more", []);
            return Ok(());
        }
        let head = format!("B,{count},{}", block.length[0]);
        line(lines, &head, &block.offsets[..walk.strides.len()]);
        count += 1;
        cells += u128::from(block.length[0]);
    }
    line(lines, "Z", [u128::from(count), cells]);
    Ok(())
}

/// The port's lines for a layout, but for `region`. Where the original stops at
/// its cap, the plan is left out.
fn layout_lines(lines: &mut Vec<String>, layout: &Layout, capped: bool) -> Result<(), String> {
    let flat = Flat::of(layout);
    let mut plan = held_plan();
    let code = gougelily::plan(&flat, &mut plan);
    same(
        "refusals of parts and plan",
        -(parts::check(&flat) as i64),
        code,
    )?;
    if code < 0 {
        line(lines, "R", [-code]);
        return Ok(());
    }
    let rank = layout.extents.len();
    let (mut ranks, mut weights, mut order) = ([[0; 64]; 8], [0; 64], [0; 64]);
    let (mut fused, mut costs) = ([0; 64], [0; 64]);
    let refusals = [
        parts::ranks(&flat, &mut ranks),
        parts::weights(&flat, &mut weights),
        parts::order(&flat, &mut order),
        parts::fused(&flat, &mut fused),
        parts::costs(&flat, &mut costs),
    ];
    same("refusals of parts", refusals, [0; 5])?;
    for (operand, row) in ranks.iter().enumerate().take(layout.strides.len()) {
        line(lines, &format!("ranks,{operand}"), &row[..rank]);
    }
    line(lines, "weights", &weights[..rank]);
    line(lines, "order", &order[..rank]);
    line(lines, "fused", &fused[..rank]);
    line(lines, "costs", &costs[..plan.rank[0]]);
    if capped {
        return Ok(());
    }
    let walk = planned(layout).ok_or("the port refuses to plan again")?;
    line(lines, "K", [walk.extents.len()]);
    for axis in 0..walk.extents.len() {
        let head = format!("A,{axis},{},{}", walk.extents[axis], walk.blocks[axis]);
        line(lines, &head, walk.strides.iter().map(|row| row[axis]));
    }
    walk_lines(lines, &walk)
}

/// Compares one case, line by line.
fn compare_case(case: &Case, met: &mut Counts) -> Result<(), String> {
    let word = |line: &str| line.split(',').next().expect("a first field").to_string();
    let layout = matches!(case.request, Request::Layout(_));
    let capped = layout && case.answer.iter().any(|line| word(line) == "cap");
    let mut lines = Vec::new();
    match &case.request {
        Request::Layout(layout) => {
            met.add("layouts");
            layout_lines(&mut lines, layout, capped)?;
            if capped {
                compare_slow(layout)?;
                met.add("lines cap of a layout, compared with the model");
            }
        }
        Request::Walk(walk) => {
            met.add("walks");
            walk_lines(&mut lines, walk)?;
        }
    }
    let mut found = lines.into_iter();
    for &recorded in &case.answer {
        match word(recorded).as_str() {
            "region" => met.add("lines region, which the port does not answer"),
            "cap" if capped => {}
            word => {
                let found = found.next().unwrap_or_default();
                same("line", found.as_str(), recorded)?;
                met.add(&format!("lines {word}"));
            }
        }
    }
    match found.next() {
        Some(line) => Err(format!("a line too many: {line:?}")),
        None => Ok(()),
    }
}

/// A layout on which the original does not come back: the port does, and plans as
/// the model.
fn compare_slow(layout: &Layout) -> Result<(), String> {
    same_plan(&Flat::of(layout), 0, &original_plan(&by_model(layout)))
}

/// What document 01 demands of the blocks themselves: each is at least 1 and at
/// most its extent; and some first axes are whole, and behind them the region is
/// at most 32,768 or every block is 1.
fn compare_blocks(layout: &Layout, met: &mut Counts) -> Result<(), String> {
    let walk = planned(layout).ok_or("the port refuses to plan")?;
    let (extents, blocks) = (&walk.extents, &walk.blocks);
    let bounded = blocks
        .iter()
        .zip(extents)
        .all(|(b, e)| (1..=*e).contains(b));
    same("blocks within the extents", bounded, true)?;
    let strides = rows(&walk.strides);
    let within = |first: usize| {
        let tails: Vec<&[isize]> = strides.iter().map(|row| &row[first..]).collect();
        let region = original::probe::region(&blocks[first..], &tails, &layout.sizes);
        region <= original::BLOCK_MEMORY_SIZE as u128
    };
    let whole = blocks
        .iter()
        .zip(extents)
        .take_while(|(b, e)| b == e)
        .count();
    let region = (0..=whole.min(blocks.len() - 1)).any(within);
    let ones = blocks[whole..].iter().all(|&block| block == 1);
    same("region within, or blocks of 1", region || ones, true)?;
    if region {
        met.add("slow plans within the region");
    }
    Ok(())
}

/// Compares the slow layouts and their shortened copies.
fn compare_all_slow(met: &mut Counts) -> Result<(), String> {
    for (_, request) in read_all(SLOW)? {
        let Request::Layout(slow) = &request else {
            return Err(format!("slow.txt has no layout at\n{request}"));
        };
        let told = |error| format!("{error}\n{slow}");
        compare_slow(slow).map_err(told)?;
        compare_blocks(slow, met).map_err(told)?;
        met.add("slow layouts, compared with the model");
        for length in SHORTENED {
            let short = model::shortened(slow, length);
            let told = |error| format!("{error}\n{short}");
            let plan = study(&short, STEPS).plan;
            let plan = plan.ok_or("the original takes more steps".to_string());
            let plan = original_plan(&plan.map_err(told)?);
            same_plan(&Flat::of(&short), 0, &plan).map_err(told)?;
            met.add("slow layouts shortened, compared with the original");
        }
    }
    Ok(())
}

/// Microseconds of the slowest plan of the slow layouts.
fn slowest() -> Result<u128, String> {
    let mut slowest = 0;
    for (_, request) in read_all(SLOW)? {
        if let Request::Layout(layout) = &request {
            let (flat, mut plan) = (Flat::of(layout), held_plan());
            let start = Instant::now();
            gougelily::plan(&flat, &mut plan);
            slowest = slowest.max(start.elapsed().as_micros());
        }
    }
    Ok(slowest)
}

/// Replays both recorded files and the slow layouts. The task has no say.
pub fn compare(_: &Task, report: &mut String) -> Result<(), String> {
    let mut met = Counts::of(COUNTED);
    for (file, text) in FILES {
        for case in cases(text)? {
            let (line, request) = (case.line, &case.request);
            let told = |error| format!("{file}, case at line {line}: {error}\n{request}");
            compare_case(&case, &mut met).map_err(told)?;
        }
    }
    compare_all_slow(&mut met)?;
    met.tell(report);
    let slowest = slowest()?;
    writeln!(
        report,
        "{slowest:10}  microseconds, the slowest plan of a slow layout"
    )
    .expect("a String takes all");
    met.require("replay", &[])
}
