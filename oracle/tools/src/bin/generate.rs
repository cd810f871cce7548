//! Prints seeded layouts, or walk requests, in the text form that the program
//! `oracle` reads. The same options give the same text.

use std::io::{stdout, BufWriter, Write};
use std::process::ExitCode;
use tools::generate::{request, Kind, Random};
use tools::options::{end, unknown, Options};

const HELP: &str = "\
generate: prints seeded layouts in the text form

  --seed S     the seed (0)
  --count N    how many (100)
  --kind KIND  order, fuse, block, refuse, small, wide, mixed (all of these), still,
               or walk: walk requests (mixed)
  --help       this text
";

fn run() -> Result<(), String> {
    let (mut seed, mut count, mut kind) = (0, 100, Kind::Mixed);
    let mut options = Options::of_process()?;
    let mut output = BufWriter::new(stdout().lock());
    let unwritable = |error| format!("the output cannot be written: {error}");
    while let Some(option) = options.next_option() {
        match option.as_str() {
            "--seed" => seed = options.number(&option)?,
            "--count" => count = options.number(&option)?,
            "--kind" => {
                let name = options.value(&option)?;
                kind = Kind::of_name(&name).ok_or_else(|| format!("unknown kind {name:?}"))?;
            }
            "--help" => return output.write_all(HELP.as_bytes()).map_err(unwritable),
            _ => return Err(unknown(&option)),
        }
    }
    let mut random = Random::new(seed);
    for _ in 0..count {
        write!(output, "{}", request(&mut random, kind)).map_err(unwritable)?;
    }
    output.flush().map_err(unwritable)
}

fn main() -> ExitCode {
    end("generate", run())
}
