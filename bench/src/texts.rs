//! Texts: the library's `gougelily_walklist`. The original has no counterpart.

use crate::timing;
use port::gougelily;
use std::hint::black_box;

/// A text's time, and what it was answered.
pub struct Row {
    pub name: &'static str,
    pub bytes: usize,
    pub answer: i64,
    pub nanoseconds: f64,
}

/// A text with these extents, and operands of 8 bytes with these strides.
fn text(extents: &[String], strides: &[Vec<String>]) -> String {
    let (rank, operands) = (extents.len(), strides.len());
    let mut text = format!("L,P,{rank},{operands},-\n");
    line(&mut text, "E", extents);
    for row in strides {
        line(&mut text, "O,8", row);
    }
    text
}

fn line(text: &mut String, front: &str, numbers: &[String]) {
    text.push_str(front);
    for number in numbers {
        text.push(',');
        text.push_str(number);
    }
    text.push('\n');
}

fn all(number: &str, count: usize) -> Vec<String> {
    vec![number.to_string(); count]
}

/// The texts: the longest within the limits, one of 16,384 bytes, many blocks.
fn texts() -> Vec<(&'static str, String)> {
    let extents = all("1", 64);
    let longest = text(&extents, &vec![all("-9223372036854775808", 64); 8]);
    // a rank above 64 is in the form, and is refused with 1
    let mut most = text(&all("1", 2044), &vec![all("1", 2044); 3]);
    let missing = 16_384 - most.len();
    let last = most.rfind(",1\n").expect("a last stride");
    most.replace_range(last..last + 2, &format!(",{}", "1".repeat(missing + 1)));
    let apart = |a: &str, b: &str| vec![a.to_string(), b.to_string()];
    let single = [apart("5000", "6000000"), apart("6000000", "5000")];
    vec![
        ("64 axes, 8 operands, the longest numbers", longest),
        ("16,384 bytes", most),
        (
            "1,048,576 blocks of one cell",
            text(&all("1024", 2), &single),
        ),
    ]
}

pub fn times(runs: u64) -> Vec<Row> {
    let mut room = vec![0; 65_536];
    let mut found = Vec::new();
    for (name, text) in texts() {
        let answer = gougelily::walklist(text.as_bytes(), &mut room);
        let mut call = || gougelily::walklist(black_box(text.as_bytes()), &mut room) as usize;
        found.push(Row {
            name,
            bytes: text.len(),
            answer,
            nanoseconds: timing::alone(runs, &mut call),
        });
    }
    found
}
