//! Writes recorded/answers.txt and recorded/walks.txt. Counts the cases of each
//! branch on standard error, and fails if a branch has none.

use std::io::{stdout, Write};
use std::path::{Path, PathBuf};
use std::process::ExitCode;
use tools::options::{end, note, unknown, Options};
use tools::record::{answers, walks, Recording};

const HELP: &str = "\
record: writes answers.txt and walks.txt

  --out FOLDER  where to (the workspace's folder recorded)
  --help        this text
";

fn write(folder: &Path, name: &str, recording: &Recording) -> Result<(), String> {
    let (cases, bytes) = (recording.cases, recording.text.len());
    note(&format!("{name}: {cases} cases, {bytes} bytes"));
    for (branch, count) in &recording.counts {
        note(&format!("{count:6}  {branch}"));
    }
    let missing = recording.missing();
    if !missing.is_empty() {
        return Err(format!("{name}: no case for: {}", missing.join("; ")));
    }
    let path = folder.join(name);
    std::fs::write(&path, &recording.text).map_err(|error| format!("{}: {error}", path.display()))
}

fn run() -> Result<(), String> {
    let mut folder = Path::new(env!("CARGO_MANIFEST_DIR")).join("../recorded");
    let mut options = Options::of_process()?;
    while let Some(option) = options.next_option() {
        match option.as_str() {
            "--out" => folder = PathBuf::from(options.value(&option)?),
            "--help" => {
                let written = stdout().write_all(HELP.as_bytes());
                return written.map_err(|error| error.to_string());
            }
            _ => return Err(unknown(&option)),
        }
    }
    write(&folder, "answers.txt", &answers()?)?;
    write(&folder, "walks.txt", &walks()?)
}

fn main() -> ExitCode {
    end("record", run())
}
