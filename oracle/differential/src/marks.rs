//! The repeat mark: "Up to a total of 4,096 it is yes or no: yes exactly if two
//! indices share an offset. Above that, yes for a zero stride on an axis of extent
//! above 1. Otherwise it is no if, by rising stride size over axes of extent above
//! 1, each stride size exceeds the reach of those before it. All else is undecided.
//! Zero extents stay a no." And rows 1, 3, which reads one operand, 5 and 6.

use crate::compare::{same, Counts, Task};
use port::gougelily::repeat_mark;
use strided_basic::injectivity::is_injective_layout;

const COUNTED: [&str; 12] = [
    "marks, no: a zero extent",
    "marks, yes, up to 4,096",
    "marks, no, up to 4,096",
    "marks, yes, above",
    "marks, no, above",
    "marks, undecided",
    "refused by row 1",
    "refused by row 5",
    "refused by row 6",
    "refused by row 3, a stride too many",
    "refused by row 3, a stride too few",
    "refused by row 1 before row 3",
];

/// Every offset, sorted.
fn offsets(axes: &[(u128, i128)]) -> Vec<i128> {
    let mut all = vec![0];
    for &(extent, stride) in axes {
        all = (0..extent as i128)
            .flat_map(|at| all.iter().map(move |offset| offset + at * stride))
            .collect();
    }
    all.sort_unstable();
    all
}

/// What the sentences say of an operand, by name and code.
fn told(extents: &[usize], strides: &[isize]) -> (&'static str, i64) {
    if extents.len() > 64 {
        return ("refused by row 1", -1);
    }
    if extents.contains(&0) {
        return ("marks, no: a zero extent", 0);
    }
    let Some(total) = extents
        .iter()
        .try_fold(1u64, |product, &extent| product.checked_mul(extent as u64))
    else {
        return ("refused by row 5", -5);
    };
    let mut axes: Vec<(u128, i128)> = extents
        .iter()
        .zip(strides)
        .map(|(&extent, &stride)| (extent as u128, stride as i128))
        .filter(|&(extent, _)| extent > 1)
        .collect();
    let reach = |axes: &[(u128, i128)]| -> u128 {
        axes.iter()
            .map(|&(extent, stride)| (extent - 1) * stride.unsigned_abs())
            .sum()
    };
    if reach(&axes) > i64::MAX as u128 {
        return ("refused by row 6", -6);
    }
    if total <= 4096 {
        let repeats = offsets(&axes).windows(2).any(|pair| pair[0] == pair[1]);
        return [
            ("marks, no, up to 4,096", 0),
            ("marks, yes, up to 4,096", 1),
        ][repeats as usize];
    }
    if axes.iter().any(|&(_, stride)| stride == 0) {
        return ("marks, yes, above", 1);
    }
    axes.sort_by_key(|&(_, stride)| stride.unsigned_abs());
    let rises = (0..axes.len()).all(|at| axes[at].1.unsigned_abs() > reach(&axes[..at]));
    [("marks, undecided", 2), ("marks, no, above", 0)][rises as usize]
}

fn compare_operand(extents: &[usize], strides: &[isize], met: &mut Counts) -> Result<(), String> {
    let (name, code) = told(extents, strides);
    let numbers: Vec<u64> = extents.iter().map(|&extent| extent as u64).collect();
    let mut row: Vec<i64> = strides.iter().map(|&stride| stride as i64).collect();
    same("code of repeat_mark", repeat_mark(&numbers, &row), code)?;
    met.add(name);
    // Up to 4,096 cells the original's own test of a destination is exact, too.
    if name.ends_with("up to 4,096") {
        same(
            "the original's is_injective_layout",
            is_injective_layout(extents, strides),
            code == 0,
        )?;
    }
    // Row 3, after row 1.
    let wrong = if extents.len() > 64 { -1 } else { -3 };
    if wrong == -1 {
        met.add("refused by row 1 before row 3");
    }
    row.push(0);
    same(
        "code with a stride more",
        repeat_mark(&numbers, &row),
        wrong,
    )?;
    met.add("refused by row 3, a stride too many");
    if !strides.is_empty() {
        row.truncate(strides.len() - 1);
        same(
            "code with a stride less",
            repeat_mark(&numbers, &row),
            wrong,
        )?;
        met.add("refused by row 3, a stride too few");
    }
    Ok(())
}

/// Marks each operand of the layouts of each kind.
pub fn compare(task: &Task, report: &mut String) -> Result<(), String> {
    let mut met = Counts::of(COUNTED);
    for &(_, kind) in &task.kinds {
        task.layouts(kind, |_, layout, _| {
            for (operand, strides) in layout.strides.iter().enumerate() {
                compare_operand(&layout.extents, strides, &mut met)
                    .map_err(|error| format!("operand {operand}, {error}"))?;
            }
            Ok(())
        })?;
    }
    met.tell(report);
    if task.whole {
        met.require("marks", &[])?;
    }
    Ok(())
}
