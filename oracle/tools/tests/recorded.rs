//! The recorded files: recording again gives the same bytes, every branch has
//! a case, and the program answers each recorded request as recorded.

mod common;

use tools::record::{answers, walks, Recording};

fn stored(name: &str) -> String {
    let folder = concat!(env!("CARGO_MANIFEST_DIR"), "/../recorded/");
    std::fs::read_to_string(format!("{folder}{name}")).expect("the recorded file is there")
}

fn check(recording: Recording, name: &str) {
    assert_eq!(
        recording.missing(),
        Vec::<&str>::new(),
        "branches of {name}"
    );
    let stored = stored(name);
    for (line, (again, stored)) in recording.text.lines().zip(stored.lines()).enumerate() {
        assert_eq!(again, stored, "{name}, line {}", line + 1);
    }
    assert!(recording.text == stored, "{name} has another length or end");
}

/// Splits a recorded file into the request lines and the answer lines.
fn split(text: &str) -> (String, String) {
    let (mut requests, mut answers) = (String::new(), String::new());
    for line in text.lines() {
        let word = line.split(',').next().expect("a first field");
        let request = line.starts_with('#') || ["L", "E", "O", "W", "S"].contains(&word);
        let part = if request { &mut requests } else { &mut answers };
        part.push_str(line);
        part.push('\n');
    }
    (requests, answers)
}

#[test]
fn answers_are_recorded_again_byte_for_byte() {
    let recording = answers().expect("no panic of the original");
    assert!(
        (250..=500).contains(&recording.cases),
        "{}",
        recording.cases
    );
    assert!(recording.text.len() < 700_000, "{}", recording.text.len());
    check(recording, "answers.txt");
}

#[test]
fn walks_are_recorded_again_byte_for_byte() {
    let recording = walks().expect("no panic of the original");
    assert!(recording.cases >= 100, "{}", recording.cases);
    check(recording, "walks.txt");
}

#[test]
fn the_program_answers_as_recorded() {
    for name in ["answers.txt", "walks.txt"] {
        let (requests, answers) = split(&stored(name));
        let outcome = common::oracle(&["--blocks", "64"], &requests);
        assert_eq!(outcome.status, Some(0), "{}", outcome.message);
        assert!(outcome.output == answers, "{name} differs");
    }
}

#[test]
fn the_program_record_writes_the_recorded_files() {
    let folder = std::path::Path::new(env!("CARGO_TARGET_TMPDIR")).join("record");
    std::fs::create_dir_all(&folder).expect("the test folder takes folders");
    let path = folder.to_str().expect("a path in UTF-8");
    let outcome = common::run(env!("CARGO_BIN_EXE_record"), &["--out", path], b"");
    assert_eq!(outcome.status, Some(0), "{}", outcome.message);
    let again = |name| std::fs::read_to_string(folder.join(name)).expect("a written file");
    for name in ["answers.txt", "walks.txt"] {
        assert!(again(name) == stored(name), "{name} differs");
    }
}

#[test]
fn the_parts_are_recorded_too() {
    let (requests, answers) = split(&stored("answers.txt"));
    let outcome = common::oracle(&["--parts"], &requests);
    assert_eq!(outcome.status, Some(0), "{}", outcome.message);
    let word = |line: &&str| {
        let word = line.split(',').next().expect("a first field");
        ["R", "ranks", "weights", "order", "."].contains(&word)
    };
    let parts: Vec<&str> = answers.lines().filter(word).collect();
    assert_eq!(outcome.output.lines().collect::<Vec<_>>(), parts);
}

#[test]
fn a_branch_without_a_case_is_missing() {
    let recording = Recording {
        text: String::new(),
        cases: 0,
        counts: vec![("reached", 2), ("unreached", 0)],
    };
    assert_eq!(recording.missing(), ["unreached"]);
}
