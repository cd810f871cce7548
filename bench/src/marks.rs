//! The repeat mark: the library's `gougelily_repeat_mark` beside a plain exact test
//! in Rust, which collects the offsets axis by axis, sorts them and looks at
//! neighbours. The planner of the original has no counterpart.

use crate::timing;
use port::gougelily;
use std::hint::black_box;

/// A layout's times.
pub struct Row {
    pub name: &'static str,
    pub answer: i64,
    pub plain: f64,
    pub port: f64,
}

/// Whether two indices share an offset.
fn repeats(extents: &[u64], strides: &[i64]) -> bool {
    let mut all = vec![0i64];
    for (&extent, &stride) in extents.iter().zip(strides) {
        let before = all.len();
        all.reserve(before * extent as usize);
        for at in 1..extent as i64 {
            for i in 0..before {
                all.push(all[i] + at * stride);
            }
        }
    }
    all.sort_unstable();
    all.windows(2).any(|pair| pair[0] == pair[1])
}

/// The layouts: those that the quick tests decide, those whose offsets are listed, and one that only the quick tests can be asked of.
fn layouts() -> Vec<(&'static str, Vec<u64>, Vec<i64>)> {
    let odd = |count: usize| -> Vec<i64> {
        let far = (0..count as i64).map(|i| 1_000_003 + 7919 * i * i + 13 * i);
        far.collect()
    };
    vec![
        ("3 x 3, strides 1, 1", vec![3, 3], vec![1, 1]),
        ("8 x 8, strides 3, 5", vec![8, 8], vec![3, 5]),
        ("2, six times, far strides", vec![2; 6], odd(6)),
        ("5 x 13, far strides", vec![5, 13], odd(2)),
        ("64 x 64, packed", vec![64, 64], vec![1, 64]),
        ("64 x 64, far strides", vec![64, 64], odd(2)),
        ("16 x 16 x 16, far strides", vec![16; 3], odd(3)),
        ("8 x 8 x 8 x 8, far strides", vec![8; 4], odd(4)),
        ("2, twelve times, far strides", vec![2; 12], odd(12)),
        ("63 x 65, far strides", vec![63, 65], odd(2)),
        ("3, seven times, far strides", vec![3; 7], odd(7)),
        ("2048 x 2, strides 1, 2047", vec![2048, 2], vec![1, 2047]),
        ("64 x 64, strides 1, 1", vec![64, 64], vec![1, 1]),
        ("16 x 16 x 17, packed", vec![16, 16, 17], vec![1, 16, 256]),
        ("16 x 16 x 17, a stride 0", vec![16, 16, 17], vec![1, 16, 0]),
    ]
}

pub fn times(runs: u64) -> Vec<Row> {
    let mut found = Vec::new();
    for (name, extents, strides) in layouts() {
        let answer = gougelily::repeat_mark(&extents, &strides);
        assert_eq!(
            answer == 1,
            repeats(&extents, &strides),
            "{name}: the two differ"
        );
        let mut plain = || repeats(black_box(&extents), black_box(&strides)) as usize;
        let mut port = || gougelily::repeat_mark(black_box(&extents), black_box(&strides)) as usize;
        let (plain, port) = timing::best(runs, &mut plain, &mut port);
        found.push(Row {
            name,
            answer,
            plain,
            port,
        });
    }
    found
}
