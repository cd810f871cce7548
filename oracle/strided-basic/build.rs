// Build script of the shim: compiles the original planner files, with the changes
// that document 02 asks for, checks the shim's constants against the originals, and
// makes the counted copies of block.rs and fuse.rs that no plan is made with. The
// package strided-unchanged runs it too, and gets the files without the changes.

#[path = "../source.rs"]
#[allow(dead_code)]
mod source;

const PACKAGE: &str = "strided-basic";

/// Changes that document 02 asks for: the file, the text, and what stands for it.
/// Ask 9: on equal weight the larger extent comes first; the sort is stable, so on
/// equal extents the lower axis does. Ask 7: the cost of an axis on which every
/// stride is 0 is 0, which says that it has none, and such axes are passed over.
const ASKED_CHANGES: &[(&str, &str, &str)] = &[
    (
        "fuse.rs",
        "pub fn sort_by_importance(importance: &[u64]) -> InlineVec<usize> {",
        "pub fn sort_by_importance(importance: &[u64], dims: &[usize]) -> InlineVec<usize> {",
    ),
    (
        "fuse.rs",
        "indices.sort_by(|&a, &b| importance[b].cmp(&importance[a]));",
        "indices.sort_by(|&a, &b| (importance[b], dims[b]).cmp(&(importance[a], dims[a])));",
    ),
    (
        "order.rs",
        "sort_by_importance(&importance)",
        "sort_by_importance(&importance, dims)",
    ),
    (
        "fuse.rs",
        "*slot = if min == 0 { 1 } else { min.saturating_mul(2) };",
        "let still = all_strides.iter().all(|strides| strides.as_ref()[axis] == 0);
        *slot = if still { 0 } else if min == 0 { 1 } else { min.saturating_mul(2) };",
    ),
    ("block.rs", "if b <= 1 {", "if b <= 1 || c == 0 {"),
];

/// Changes of the counted copy of block.rs: the text, and what stands for it.
const BLOCK_CHANGES: &[(&str, &str)] = &[
    (
        "compute_blocks_at(blocks, offset + 1, costs, rows, block_size);",
        "crate::probe::note(crate::probe::Event::KeptFirst);
        compute_blocks_at(blocks, offset + 1, costs, rows, block_size);",
    ),
    (
        "tail.fill(1);",
        "crate::probe::note(crate::probe::Event::TailToOne);
        tail.fill(1);",
    ),
    (
        "tail[i] = tail[i].div_ceil(2);",
        "if !crate::probe::step(crate::probe::Event::Halved) {
            return;
        }
        tail[i] = tail[i].div_ceil(2);",
    ),
    (
        "tail[i] -= 1;",
        "if !crate::probe::step(crate::probe::Event::Lessened) {
            return;
        }
        tail[i] -= 1;",
    ),
    (
        "None => region_in::<u128>(dims, strides_list, offset, elem_sizes).unwrap_or(u128::MAX),",
        "None => {
            crate::probe::note(crate::probe::Event::RegionAbove64Bits);
            region_in::<u128>(dims, strides_list, offset, elem_sizes).unwrap_or(u128::MAX)
        }",
    ),
    (
        "if sets.load(blocks, None) <= budget as u128 {",
        "if sets.load(blocks, None) <= budget as u128 {
        crate::probe::note(crate::probe::Event::FitLoadWithin);",
    ),
    (
        "if frozen(axis) {",
        "if frozen(axis) {
            crate::probe::note(crate::probe::Event::FitSkipChosenZero);",
    ),
    (
        "let Some(floor) = sets.floor(axis, blocks[axis]) else {",
        "let Some(floor) = sets.floor(axis, blocks[axis]) else {
            crate::probe::note_skip(sets.floor(axis, 2).is_some());",
    ),
    (
        "blocks[axis] = floor;",
        "crate::probe::note(crate::probe::Event::FitSetOne);
            blocks[axis] = floor;",
    ),
    (
        "blocks[axis] = lo;",
        "crate::probe::note(crate::probe::Event::FitGreatest);
        blocks[axis] = lo;",
    ),
    (
        "if elem_size == 0 {
        return true;",
        "if elem_size == 0 {
        crate::probe::note(crate::probe::Event::SlabSizeZero);
        return true;",
    ),
    (
        "if width % line != 0 {",
        "if width % line != 0 {
        crate::probe::note(crate::probe::Event::SlabWidth);",
    ),
    (
        "wide_tail_separated(count, &fill, &separated)",
        "crate::probe::note(crate::probe::Event::SlabWideTail);
        wide_tail_separated(count, &fill, &separated)",
    ),
    (
        "if stride % line != 0 || stride < span {",
        "if stride % line != 0 || stride < span {
            crate::probe::note_tail(stride % line != 0);",
    ),
];

/// Public doors of the counted copy to private functions of block.rs.
const BLOCK_DOORS: &str = "
pub(crate) fn region_door(dims: &[usize], strides: &[&[isize]], sizes: &[usize]) -> u128 {
    memory_region(dims, strides, 0, sizes)
}

pub(crate) fn increasing_door(strides: &[isize]) -> bool {
    strictly_increasing(strides)
}
";

/// Changes of the counted copy of fuse.rs.
const FUSE_CHANGES: &[(&str, &str)] = &[
    (
        "if strides[i - 1] == 0 && strides[i] == 0 {",
        "if strides[i - 1] == 0 && strides[i] == 0 {
                crate::probe::note(crate::probe::Event::FuseBothZero);",
    ),
    (
        "if expected != Some(strides[i]) {",
        "if expected != Some(strides[i]) {
                crate::probe::note_break(result[i - 1], expected);",
    ),
    (
        "if can_merge {",
        "if can_merge {
            crate::probe::note_join(&result, all_strides, i);",
    ),
    (
        "let output_weight = 1u64.checked_shl((bits + 1) as u32)?;",
        "crate::probe::note_weights(bits, level_cap);
        let output_weight = 1u64.checked_shl((bits + 1) as u32)?;",
    ),
];

fn main() {
    source::require_same_definitions(
        PACKAGE,
        "lib.rs",
        &[
            "BLOCK_MEMORY_SIZE",
            "CACHE_LINE_SIZE",
            "L1_WAYS",
            "L1_LIVE_LINES_PER_SET",
        ],
    );
    source::require_same_definitions(
        PACKAGE,
        "raw_ops.rs",
        &["RAW_FUSED_RANK_LIMIT", "MAX_MOVING_AXES"],
    );
    let unchanged = std::env::var("CARGO_PKG_NAME").as_deref() == Ok("strided-unchanged");
    let asked = if unchanged { &[] } else { ASKED_CHANGES };
    let asked_of = |file: &str| -> Vec<(&str, &str)> {
        let here = asked.iter().filter(|(changed, _, _)| *changed == file);
        here.map(|&(_, from, to)| (from, to)).collect()
    };
    let counted = |file: &str, changes: &[(&'static str, &'static str)], doors: &str| {
        let all: Vec<(&str, &str)> = [asked_of(file), changes.to_vec()].concat();
        source::counted_module(PACKAGE, file, &all, doors)
    };
    let mut modules = String::new();
    for file in ["block.rs", "fuse.rs", "inline.rs", "kernel.rs", "order.rs"] {
        modules += &source::changed_module(PACKAGE, file, &asked_of(file));
    }
    modules += &counted("block.rs", BLOCK_CHANGES, BLOCK_DOORS);
    modules += &counted("fuse.rs", FUSE_CHANGES, "");
    source::write_modules(PACKAGE, &modules);
}
