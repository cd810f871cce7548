//! The figures of document 01 hold on the original, and the worked example of
//! its text form is answered with its very lines.

mod common;

use strided_basic as original;
use strided_basic::StridedError;

const PADDED: [isize; 2] = [512, 1];
const FIRST: [isize; 2] = [1, 64];

fn pointwise(extents: &[usize], strides: &[&[isize]], chosen: Option<usize>) -> original::Plan {
    let total = original::total_len(extents).expect("a total of 64 bits");
    original::pointwise_plan(extents, strides, chosen, &vec![8; strides.len()], total)
}

fn fold(extents: &[usize], strides: &[&[isize]]) -> original::Plan {
    let total = original::total_len(extents).expect("a total of 64 bits");
    original::fold_plan(extents, strides, 0, &vec![8; strides.len()], total)
}

/// The offsets of one operand and the lengths of the blocks.
fn walk(
    extents: &[usize],
    blocks: &[usize],
    strides: &[isize],
    start: isize,
) -> (Vec<isize>, Vec<usize>) {
    let (mut offsets, mut lengths) = (Vec::new(), Vec::new());
    let note = |offset: &[isize], length: usize, _: &[isize]| {
        offsets.push(offset[0]);
        lengths.push(length);
        Ok::<(), StridedError>(())
    };
    let walked =
        original::for_each_inner_block_preordered(extents, blocks, &[strides], &[start], note);
    walked.expect("no block is refused");
    (offsets, lengths)
}

#[test]
fn ranks() {
    assert_eq!(original::index_order(&[0, 4, -2, 4]), [1, 2, 1, 2]);
}

#[test]
fn weights() {
    let weights = original::compute_importance(&[4, 4], &[&[1, 4], &[4, 1]]);
    assert_eq!(weights, [33, 12]);
}

#[test]
fn fused_axes() {
    let plan = pointwise(&[2, 3, 4], &[&[1, 2, 6]], None);
    assert_eq!((plan.extents, plan.strides), (vec![24], vec![vec![1]]));
    let plan = pointwise(&[3, 2], &[&[-1, -3]], None);
    assert_eq!((plan.extents, plan.strides), (vec![6], vec![vec![-1]]));
    let plan = pointwise(&[1, 1], &[&[5, 7]], None);
    assert_eq!((plan.extents, plan.strides), (vec![1], vec![vec![5]]));
}

#[test]
fn regions() {
    assert_eq!(original::probe::region(&[64, 64], &[&FIRST], &[8]), 32768);
    assert_eq!(original::probe::region(&[64, 65], &[&FIRST], &[8]), 33280);
}

#[test]
fn blocks() {
    let plan = pointwise(&[64, 64], &[&FIRST, &[64, 1]], Some(0));
    assert_eq!(plan.blocks, [64, 32]);
    let plan = pointwise(&[64, 64], &[&FIRST, &PADDED], Some(0));
    assert_eq!(plan.blocks, [6, 32]);
    let plan = fold(&[64, 64], &[&FIRST, &PADDED]);
    assert_eq!(plan.blocks, [64, 32]);
}

#[test]
fn walks() {
    let (offsets, lengths) = walk(&[5], &[2], &[3], 10);
    assert_eq!((offsets, lengths), (vec![10, 16, 22], vec![2, 2, 1]));
    let (offsets, _) = walk(&[3, 3], &[2, 2], &[1, 10], 0);
    assert_eq!(offsets, [0, 10, 2, 12, 20, 22]);
    let with_ones = |two: [usize; 2]| [&two[..], &[1; 7]].concat();
    let strides = [1, 10, 0, 0, 0, 0, 0, 0, 0];
    let (offsets, _) = walk(&with_ones([3, 3]), &with_ones([2, 2]), &strides, 0);
    assert_eq!(offsets, [0, 2, 10, 12, 20, 22]);
}

#[test]
fn small_totals_stay_and_larger_ones_are_ordered() {
    let plan = pointwise(&[32, 32], &[&[32, 1]], None);
    assert_eq!(
        (plan.extents, plan.strides),
        (vec![32, 32], vec![vec![32, 1]])
    );
    let plan = fold(&[33, 32], &[&[32, 1]]);
    assert_eq!((plan.extents, plan.strides), (vec![1056], vec![vec![1]]));
}

#[test]
fn refusal_examples() {
    let answer = |input: &str| common::oracle(&[], input).output;
    let total = "L,P,2,1,-\nE,4294967296,4294967296\nO,8,0,0\n";
    assert_eq!(answer(total), "R,5\n.\n");
    let reach = "L,P,1,1,-\nE,3\nO,8,4611686018427387904\n";
    assert_eq!(answer(reach), "R,6\n.\n");
    let bytes = "L,P,1,1,-\nE,2\nO,8,1152921504606846976\n";
    assert!(answer(bytes).contains("\nZ,1,2\n"));
    let offset = "W,1,1\nE,2\nS,1\nO,9223372036854775807,1\n";
    assert_eq!(answer(offset), "R,9\n.\n");
}

#[test]
fn the_worked_example() {
    let outcome = common::oracle(&[], "L,P,2,2,-\nE,2,3\nO,8,1,2\nO,8,3,1\n");
    let text = "\
ranks,0,1,2
ranks,1,2,1
weights,33,12
order,0,1
fused,2,3
costs,2,2
region,128
K,2
A,0,2,2,1,3
A,1,3,3,2,1
B,0,2,0,0
B,1,2,2,1
B,2,2,4,2
Z,3,6
.
";
    assert_eq!(outcome.output, text);
    assert_eq!(outcome.status, Some(0), "{}", outcome.message);
}
