//! The programs' options, refusals at and one past each limit, panics and
//! endless turns of the original, and the seeded layouts.

mod common;

use common::{oracle, run};
use tools::generate::{layout, request, Kind, Random};
use tools::layout::{read_all, Request};

const LAYOUT: &str = "L,P,2,2,-\nE,2,3\nO,8,1,2\nO,8,3,1\n";

/// The first line of the answer to a layout.
fn first_line(input: &str) -> String {
    let output = oracle(&["--parts"], input).output;
    output.lines().next().expect("an answer").to_string()
}

#[test]
fn options_shorten_the_answer() {
    let parts = oracle(&["--parts"], LAYOUT).output;
    assert!(parts.ends_with("order,0,1\n.\n"), "{parts}");
    let plan = oracle(&["--no-walk"], LAYOUT).output;
    assert!(plan.ends_with("A,1,3,3,2,1\n.\n"), "{plan}");
    let two = oracle(&["--blocks", "2"], LAYOUT).output;
    assert!(two.ends_with("B,1,2,2,1\nmore\n.\n"), "{two}");
    let three = oracle(&["--blocks", "3"], LAYOUT).output;
    assert!(three.ends_with("B,2,2,4,2\nZ,3,6\n.\n"), "{three}");
    let none = oracle(&["--blocks", "0"], LAYOUT).output;
    assert!(none.ends_with("A,1,3,3,2,1\nmore\n.\n"), "{none}");
}

#[test]
fn empty_lists_are_just_the_word() {
    let outcome = oracle(&[], "L,P,0,2,-\nE\nO,8\nO,0\n");
    let text = "\
ranks,0
ranks,1
weights
order
fused
costs
region,128
K,0
B,0,1,0,0
Z,1,1
.
";
    assert_eq!(outcome.output, text);
}

#[test]
fn refusals_start_one_past_the_limit() {
    let ones = |rank: usize, item: &str| format!(",{item}").repeat(rank);
    let rank = |rank: usize| {
        let (extents, strides) = (ones(rank, "1"), ones(rank, "7"));
        first_line(&format!("L,P,{rank},1,-\nE{extents}\nO,8{strides}\n"))
    };
    assert!(rank(64).starts_with("ranks,0,"));
    assert_eq!(rank(65), "R,1");
    let operands = |count: usize| {
        first_line(&format!(
            "L,P,1,{count},-\nE,2\n{}",
            "O,8,1\n".repeat(count)
        ))
    };
    assert_eq!(operands(0), "R,2");
    assert_eq!(operands(1), "ranks,0,1");
    assert_eq!(operands(8), "ranks,0,1");
    assert_eq!(operands(9), "R,2");
    let chosen = |chosen: u64| first_line(&format!("L,F,1,2,{chosen}\nE,2\nO,8,1\nO,8,1\n"));
    assert_eq!(chosen(1), "ranks,0,1");
    assert_eq!(chosen(2), "R,4");
    assert_eq!(chosen(u64::MAX), "R,4");
    let one = |extents: &str, operand: &str| {
        let rank = extents.split(',').count();
        first_line(&format!("L,P,{rank},1,-\nE,{extents}\nO,{operand}\n"))
    };
    assert_eq!(one("6700417,2753074036095", "8,0,0"), "ranks,0,1,1");
    assert_eq!(one("2,9223372036854775808", "8,0,0"), "R,5");
    assert_eq!(one("2", "0,-9223372036854775807"), "ranks,0,1");
    assert_eq!(one("2", "0,-9223372036854775808"), "R,6");
    assert_eq!(
        one("2,2", "0,4611686018427387904,-4611686018427387904"),
        "R,6"
    );
    assert_eq!(one("2", "1,9223372036854775806"), "ranks,0,1");
    // Row 7 is given no longer.
    assert_eq!(one("2", "1,9223372036854775807"), "ranks,0,1");
    assert_eq!(one("2", "7,-1317624576693539401"), "ranks,0,1");
    let all = "18446744073709551615,9223372036854775807";
    assert_eq!(one("2", all), "ranks,0,1");
    // A zero extent lets rows 5 and 6 pass, but not row 4.
    let huge = "18446744073709551615,-9223372036854775808,1,1";
    assert_eq!(
        one("18446744073709551615,0,18446744073709551615", huge),
        "ranks,0,3,1,1"
    );
    assert_eq!(first_line("L,P,1,1,1\nE,0\nO,8,1\n"), "R,4");
}

#[test]
fn a_panic_of_the_original_is_one_line_and_the_next_request_is_answered() {
    // A zero extent hands out no block, but the tiles outside it are stepped
    // through, and the offset leaves 64 bits.
    let overflow = "W,2,1\nE,0,4\nS,1,1\nO,0,1,4611686018427387904\n";
    let outcome = oracle(&[], &format!("{overflow}W,1,1\nE,0\nS,1\nO,0,1\n"));
    assert_eq!(outcome.status, Some(0));
    assert_eq!(
        outcome.output,
        "panic,attempt to add with overflow\n.\nZ,0,0\n.\n"
    );
    assert_eq!(outcome.message, "");
}

#[test]
fn endless_turns_over_empty_tiles_are_capped() {
    let input = "W,2,1\nE,0,18446744073709551615\nS,1,1\nO,0,1,0\n";
    assert_eq!(oracle(&[], input).output, "cap,100000\n.\n");
    let input = "W,2,1\nE,0,100000\nS,1,1\nO,0,1,0\n";
    assert_eq!(oracle(&[], input).output, "Z,0,0\n.\n");
}

#[test]
fn the_same_seed_gives_the_same_text_that_reads_back() {
    let generate = env!("CARGO_BIN_EXE_generate");
    for (name, kind) in Kind::NAMES {
        let options = ["--seed", "5", "--count", "200", "--kind", name];
        let text = run(generate, &options, b"").output;
        assert_eq!(text, run(generate, &options, b"").output);
        let read = read_all(&text).expect("generated text is in the form");
        assert_eq!(read.len(), 200);
        let mut random = Random::new(5);
        for (_, read) in read {
            assert_eq!(read, request(&mut random, kind));
            assert_eq!(matches!(read, Request::Walk(_)), kind == Kind::Walk);
        }
    }
}

#[test]
fn few_generated_layouts_are_refused() {
    for kind in [
        Kind::Order,
        Kind::Fuse,
        Kind::Block,
        Kind::Small,
        Kind::Still,
        Kind::Wide,
    ] {
        let mut random = Random::new(6);
        let refused = (0..1000).filter(|_| layout(&mut random, kind).refusal().is_some());
        assert!(refused.count() <= 50, "{kind:?}");
    }
    let mut random = Random::new(6);
    let rows: Vec<Option<u32>> = (0..1000)
        .map(|_| layout(&mut random, Kind::Refuse).refusal())
        .collect();
    for row in [None, Some(1), Some(2), Some(4), Some(5), Some(6)] {
        let count = rows.iter().filter(|&&found| found == row).count();
        assert!(count >= 30, "row {row:?}: {count}");
    }
}

#[test]
fn the_original_does_not_panic_on_generated_layouts() {
    let text = run(
        env!("CARGO_BIN_EXE_generate"),
        &["--seed", "9", "--count", "3000"],
        b"",
    );
    let outcome = oracle(&["--blocks", "16", "--steps", "20000"], &text.output);
    assert_eq!(outcome.status, Some(0), "{}", outcome.message);
    assert_eq!(outcome.output.matches("\n.\n").count(), 3000);
    assert_eq!(outcome.output.matches("panic").count(), 0);
}
