//! Shared by the tests: runs a program with an input and gives its outcome.

use std::io::Write;
use std::process::{Command, Stdio};

pub struct Outcome {
    pub status: Option<i32>,
    pub output: String,
    pub message: String,
}

/// Runs the program at a path; the input may be any bytes.
pub fn run(program: &str, options: &[&str], input: &[u8]) -> Outcome {
    let mut child = Command::new(program)
        .args(options)
        .stdin(Stdio::piped())
        .stdout(Stdio::piped())
        .stderr(Stdio::piped())
        .spawn()
        .expect("the program starts");
    let mut stdin = child.stdin.take().expect("standard input is piped");
    let input = input.to_vec();
    let writer = std::thread::spawn(move || {
        // A program that ends early leaves input unread.
        let _ = stdin.write_all(&input);
    });
    let output = child.wait_with_output().expect("the program ends");
    writer.join().expect("the input is written");
    Outcome {
        status: output.status.code(),
        output: String::from_utf8(output.stdout).expect("the output is text"),
        message: String::from_utf8(output.stderr).expect("the message is text"),
    }
}

/// Runs the program `oracle`.
#[allow(dead_code)]
pub fn oracle(options: &[&str], input: &str) -> Outcome {
    run(env!("CARGO_BIN_EXE_oracle"), options, input.as_bytes())
}
