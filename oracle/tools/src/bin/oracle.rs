//! Reads layouts and walk requests on standard input and prints what the
//! original Rust answers. The README tells the line forms.

use std::io::{stdin, stdout, BufWriter, Write};
use std::process::ExitCode;
use tools::answer::{serve, silence_panics, Limits};
use tools::options::{end, unknown, Options};

const HELP: &str = "\
oracle: answers layouts (L, E, O lines) and walk requests (W, E, S, O lines)

  --steps N    most single steps of the cutting rule, then `cap,N` (100000)
  --blocks N   most blocks of a walk, then `more` (4096)
  --no-walk    leave out the walk of a plan
  --parts      only ranks, weights and order
  --help       this text
";

fn run() -> Result<(), String> {
    let mut limits = Limits::default();
    let mut options = Options::of_process()?;
    while let Some(option) = options.next_option() {
        match option.as_str() {
            "--steps" => limits.steps = options.number(&option)?,
            "--blocks" => limits.blocks = options.number(&option)?,
            "--no-walk" => limits.walk = false,
            "--parts" => limits.parts = true,
            "--help" => {
                let written = stdout().write_all(HELP.as_bytes());
                return written.map_err(|error| error.to_string());
            }
            _ => return Err(unknown(&option)),
        }
    }
    silence_panics();
    serve(stdin().lock(), BufWriter::new(stdout().lock()), &limits)
}

fn main() -> ExitCode {
    end("oracle", run())
}
