//! Judging: the library's `gougelily_judge` beside a plain judge in Rust, which
//! also reads the text twice and marks in the lent buffer. The original has no
//! counterpart.

use crate::timing;
use port::gougelily;
use std::hint::black_box;

/// A list's times, and what it was answered.
pub struct Row {
    pub name: &'static str,
    pub bytes: usize,
    pub answer: i64,
    pub plain: f64,
    pub port: f64,
}

/// A number behind a comma, without leading zeros, within 64 bits; and the place
/// behind it.
fn field(text: &[u8], at: usize) -> Option<(u64, usize)> {
    if text.get(at) != Some(&b',') {
        return None;
    }
    let first = at + 1;
    let mut end = first;
    let mut value = 0u64;
    while let Some(digit) = text.get(end).filter(|byte| byte.is_ascii_digit()) {
        let digit = u64::from(digit - b'0');
        value = value.checked_mul(10)?.checked_add(digit)?;
        end += 1;
    }
    let zeros = end - first > 1 && text[first] == b'0';
    (end > first && !zeros).then_some((value, end))
}

/// Axis and length of the visit at a place, with its index in `index`; and the
/// place behind it.
fn visit(text: &[u8], at: usize, index: &mut [u64]) -> Option<(usize, u64, usize)> {
    if text[at] != b'V' {
        return None;
    }
    let (axis, at) = field(text, at + 1)?;
    let (length, mut at) = field(text, at)?;
    for place in index.iter_mut() {
        (*place, at) = field(text, at)?;
    }
    let sound = axis < index.len() as u64 && length > 0 && text.get(at) == Some(&b'\n');
    sound.then_some((axis as usize, length, at + 1))
}

/// The plain judge: the verdict, or -23.
fn judge(extents: &[u64], text: &[u8], marks: &mut [u8]) -> i64 {
    let mut places = [0; 64];
    let index = &mut places[..extents.len()];
    let (mut at, mut outside) = (0, false);
    while at < text.len() {
        let Some((axis, length, next)) = visit(text, at, index) else {
            return -23;
        };
        for (i, (&here, &extent)) in index.iter().zip(extents).enumerate() {
            let span = if i == axis { length } else { 1 };
            outside |= extent < span || extent - span < here;
        }
        at = next;
    }
    marks.fill(0);
    if outside {
        return 3;
    }
    let mut double = false;
    at = 0;
    while at < text.len() {
        let Some((axis, length, next)) = visit(text, at, index) else {
            return -23;
        };
        let place = |from, (&here, &extent)| from * extent + here;
        let mut cell = index.iter().zip(extents).rev().fold(0, place) as usize;
        let step = extents[..axis].iter().product::<u64>() as usize;
        for _ in 0..length {
            double |= marks[cell] == 1;
            marks[cell] = 1;
            cell += step;
        }
        at = next;
    }
    match (double, marks.contains(&0)) {
        (true, _) => 2,
        (false, true) => 1,
        (false, false) => 0,
    }
}

/// The lines of runs of this length along an axis that cover the layout; the
/// length divides the extent.
fn runs(extents: &[u64], axis: usize, length: u64) -> String {
    let mut text = String::new();
    let cells: u64 = extents.iter().product();
    for n in 0..cells {
        let mut rest = n;
        let mut line = format!("V,{axis},{length}");
        let mut first = true;
        for (i, extent) in extents.iter().enumerate() {
            let here = rest % extent;
            rest /= extent;
            first &= i != axis || here % length == 0;
            line += &format!(",{here}");
        }
        if first {
            text += &line;
            text.push('\n');
        }
    }
    text
}

pub fn times(rounds: u64) -> Vec<Row> {
    let cube = vec![16, 64, 64];
    let mut short = runs(&cube, 0, 1);
    short.truncate(short.trim_end().rfind('\n').expect("many lines") + 1);
    let mut far = runs(&cube, 0, 1);
    far.push_str("V,0,1,16,0,0\n");
    let lists = vec![
        ("65,536 cells, rank 3", cube.clone(), runs(&cube, 0, 1)),
        ("the same without the last", cube.clone(), short),
        ("the same and one outside", cube.clone(), far),
        ("4,096 runs of 16", cube.clone(), runs(&cube, 0, 16)),
        ("1,024 runs of 64, axis 2", cube.clone(), runs(&cube, 2, 64)),
        ("65,536 cells, rank 16", vec![2; 16], runs(&[2; 16], 0, 1)),
    ];
    let mut found = Vec::new();
    for (name, extents, text) in lists {
        let (mut marks, mut others) = (vec![7; 65_536], vec![7; 65_536]);
        let answer = gougelily::judge(&extents, text.as_bytes(), &mut marks);
        assert_eq!(answer, judge(&extents, text.as_bytes(), &mut others));
        assert_eq!(marks, others, "{name}: the marks differ");
        let mut plain = || judge(&extents, black_box(text.as_bytes()), &mut others) as usize;
        let mut port =
            || gougelily::judge(&extents, black_box(text.as_bytes()), &mut marks) as usize;
        let (plain, port) = timing::best(rounds, &mut plain, &mut port);
        found.push(Row {
            name,
            bytes: text.len(),
            answer,
            plain,
            port,
        });
    }
    found
}
