//! Instructions of one call, by callgrind: they do not depend on what else the
//! machine does. The driver runs itself under valgrind twice, with some calls
//! and with twice as many, and the difference is that of the calls alone.

use crate::planning::Case;
use std::env::current_exe;
use std::process::Command;
use tools::layout::Layout;

/// Calls of the shorter run.
const CALLS: usize = 20;

/// One side of the comparison.
#[derive(Clone, Copy)]
pub enum Side {
    Original,
    Port,
}

impl Side {
    fn name(self) -> &'static str {
        match self {
            Side::Original => "original",
            Side::Port => "port",
        }
    }

    fn of_name(name: &str) -> Option<Side> {
        [Side::Original, Side::Port]
            .into_iter()
            .find(|side| side.name() == name)
    }
}

/// The counted run itself: planning of one layout, so many times.
pub fn counted(layouts: &[(String, &str, Layout)], task: &str) -> Result<(), String> {
    let wrong = || format!("no such task: {task}");
    let mut words = task.split(':');
    let side = words.next().and_then(Side::of_name).ok_or_else(wrong)?;
    let mut number = || words.next().and_then(|word| word.parse::<usize>().ok());
    let (at, calls) = number().zip(number()).ok_or_else(wrong)?;
    let layout = &layouts.get(at).ok_or_else(wrong)?.2;
    let mut case = Case::of(layout);
    let mut sum = 0;
    for _ in 0..calls {
        sum += match side {
            Side::Original => case.original(),
            Side::Port => case.port(),
        };
    }
    std::hint::black_box(sum);
    Ok(())
}

fn collected(side: Side, at: usize, calls: usize) -> Result<u64, String> {
    let own = current_exe().map_err(|error| format!("the program's own path: {error}"))?;
    let output = Command::new("valgrind")
        .args(["--tool=callgrind", "--callgrind-out-file=/dev/null"])
        .arg(own)
        .args(["--counted", &format!("{}:{at}:{calls}", side.name())])
        .output()
        .map_err(|error| format!("valgrind: {error}"))?;
    let text = String::from_utf8_lossy(&output.stderr);
    let line = text.lines().find(|line| line.contains("Collected : "));
    let number = line.and_then(|line| line.split("Collected : ").nth(1)?.trim().parse().ok());
    number.ok_or_else(|| format!("valgrind did not count:\n{text}"))
}

/// Instructions of one call.
pub fn instructions(side: Side, at: usize) -> Result<u64, String> {
    let (once, twice) = (collected(side, at, CALLS)?, collected(side, at, 2 * CALLS)?);
    Ok(twice.saturating_sub(once) / CALLS as u64)
}
