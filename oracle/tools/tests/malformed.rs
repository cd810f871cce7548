//! Malformed input and options: a message that names the line and what is
//! wrong, status 1, and no panic. Answers before the malformed line stand.

mod common;

use common::{oracle, run, Outcome};

fn expect_message(outcome: &Outcome, parts: &[&str]) {
    assert_eq!(outcome.status, Some(1), "{}", outcome.message);
    assert!(!outcome.message.contains("panicked"), "{}", outcome.message);
    for part in parts {
        assert!(
            outcome.message.contains(part),
            "{part:?} not in {:?}",
            outcome.message
        );
    }
}

#[test]
fn malformed_lines_are_named() {
    let cases: [(&str, &str, &str); 40] = [
        ("X,1\n", "line 1:", "begins with L or W"),
        ("\n\nE,2\n", "line 3:", "begins with L or W"),
        (" L,P,1,1,-\n", "line 1:", "begins with L or W"),
        ("L,P,1,1\n", "line 1:", "5 fields"),
        ("L,P,1,1,-,0\n", "line 1:", "5 fields"),
        ("L,Q,1,1,-\n", "line 1:", "the purpose"),
        ("L,P,x,1,-\n", "line 1:", "the rank"),
        ("L,P,1,-1,-\n", "line 1:", "the operand count"),
        ("L,P,1,,-\n", "line 1:", "the operand count"),
        ("L,P,1,1,--\n", "line 1:", "the chosen operand"),
        ("L,P,1,1,00\n", "line 1:", "leading zero"),
        (
            "L,F,1,1,-\nE,2\nO,8,1\n",
            "line 1:",
            "F needs a chosen operand",
        ),
        (
            "L,P,18446744073709551616,1,-\n",
            "line 1:",
            "not below 2^64",
        ),
        (
            "L,P,18446744073709551615,1,-\nE,2\n",
            "line 2:",
            "18446744073709551615, not 1",
        ),
        ("L,P,1,1,-\n", "line 2:", "the input ends where line E"),
        ("L,P,1,1,-\nO,8,1\n", "line 2:", "line E was due"),
        ("L,P,1,1,-\n\nE,2\nO,8,1\n", "line 2:", "line E was due"),
        (
            "L,P,2,1,-\nE,2\nO,8,1,1\n",
            "line 2:",
            "one extent per axis",
        ),
        ("L,P,0,1,-\nE,\nO,8\n", "line 2:", "one extent per axis"),
        ("L,P,0,1,-\nE,1\nO,8\n", "line 2:", "one extent per axis"),
        (
            "L,P,1,1,-\nE,-2\nO,8,1\n",
            "line 2:",
            "the extent of axis 0",
        ),
        (
            "L,P,1,1,-\nE,+2\nO,8,1\n",
            "line 2:",
            "the extent of axis 0",
        ),
        (
            "L,P,1,1,-\nE, 2\nO,8,1\n",
            "line 2:",
            "the extent of axis 0",
        ),
        (
            "L,P,2,1,-\nE,2,02\nO,8,1,1\n",
            "line 2:",
            "the extent of axis 1 has a leading",
        ),
        (
            "L,P,1,1,-\nE,2\r\nO,8,1\n",
            "line 2:",
            "the extent of axis 0",
        ),
        ("L,P,1,1,-\nE,2\n", "line 3:", "the input ends where line O"),
        (
            "L,P,1,2,-\nE,2\nO,8,1\nL,P,1,1,-\n",
            "line 4:",
            "line O was due",
        ),
        ("L,P,1,1,-\nE,2\nO\n", "line 3:", "no size"),
        ("L,P,1,1,-\nE,2\nO,8\n", "line 3:", "one stride per axis"),
        (
            "L,P,1,1,-\nE,2\nO,8,1,1\n",
            "line 3:",
            "one stride per axis",
        ),
        ("L,P,1,1,-\nE,2\nO,8,-0\n", "line 3:", "\"-0\""),
        ("L,P,1,1,-\nE,2\nO,8,-01\n", "line 3:", "leading zero"),
        ("L,P,1,1,-\nE,2\nO,8,-\n", "line 3:", "the stride of axis 0"),
        (
            "L,P,1,1,-\nE,2\nO,8,9223372036854775808\n",
            "line 3:",
            "signed 64-bit",
        ),
        ("L,P,1,1,-\nE,2\nO,-8,1\n", "line 3:", "the size"),
        ("L,P,1,1,-\nE,2\nO,8,1", "line 3:", "does not end in LF"),
        ("# c\nW,1\n", "line 2:", "3 fields"),
        ("W,1,1\nE,2\nO,0,1\n", "line 3:", "line S was due"),
        (
            "W,1,1\nE,2\nS,1,1\nO,0,1\n",
            "line 3:",
            "one block per axis",
        ),
        (
            "W,1,1\nE,2\nS,1\nO,-9223372036854775809,1\n",
            "line 4:",
            "the start",
        ),
    ];
    for (input, line, what) in cases {
        let outcome = oracle(&[], input);
        expect_message(&outcome, &[line, what]);
        assert_eq!(outcome.output, "", "{input:?}");
    }
}

#[test]
fn bytes_that_are_no_text_are_named() {
    let input = b"L,P,1,1,-\nE,2\nO,8,\xff\n";
    let outcome = run(env!("CARGO_BIN_EXE_oracle"), &[], input);
    expect_message(&outcome, &["line 3:", "not UTF-8"]);
}

#[test]
fn answers_before_the_malformed_line_stand() {
    let outcome = oracle(&["--parts"], "L,P,1,1,-\nE,2\nO,8,1\nL,P,1,1,-\nE,x\n");
    expect_message(&outcome, &["line 5:"]);
    assert_eq!(outcome.output, "ranks,0,1\nweights,8\norder,0\n.\n");
}

#[test]
fn comments_and_blank_lines_are_passed_over() {
    let input = "# one\n\nL,P,1,1,-\n# two\nE,2\nO,8,1\n\n\n# three\n";
    let outcome = oracle(&["--parts"], input);
    assert_eq!(outcome.status, Some(0), "{}", outcome.message);
    assert_eq!(outcome.output, "ranks,0,1\nweights,8\norder,0\n.\n");
    assert_eq!(oracle(&[], "").output, "");
}

#[test]
fn options_are_checked() {
    expect_message(&oracle(&["--wrong"], ""), &["--wrong"]);
    expect_message(&oracle(&["--steps"], ""), &["--steps needs a value"]);
    expect_message(
        &oracle(&["--blocks", "-1"], ""),
        &["--blocks needs a number"],
    );
    let generate = env!("CARGO_BIN_EXE_generate");
    expect_message(&run(generate, &["--kind", "none"], b""), &["unknown kind"]);
    expect_message(
        &run(generate, &["--count", "x"], b""),
        &["--count needs a number"],
    );
    expect_message(
        &run(env!("CARGO_BIN_EXE_record"), &["here"], b""),
        &["here"],
    );
    for program in [
        env!("CARGO_BIN_EXE_oracle"),
        generate,
        env!("CARGO_BIN_EXE_record"),
    ] {
        let outcome = run(program, &["--help"], b"");
        assert_eq!(outcome.status, Some(0));
        assert!(outcome.output.contains("--help"));
    }
}
