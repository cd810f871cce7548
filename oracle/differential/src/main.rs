//! Compares the port with the original on seeded layouts, subject by subject.
//! It ends at the first difference.

mod compare;
mod draws;
mod finding;
mod limits;
mod marks;
mod parts;
mod plans;
mod replay;
mod states;
mod values;
mod walks;

use compare::{silence_caught_panics, Task};
use std::io::{stdout, Write};
use std::process::ExitCode;
use std::time::Instant;
use tools::generate::Kind;
use tools::options::{end, unknown, Options};

const HELP: &str = "\
differential: compares the port with the original on seeded layouts

  --subject S  only this subject: parts, plans, walks, finding, marks, or replay:
               the recorded answers
  --kind KIND  only this kind: order, fuse, block, refuse, small, still, wide or
               mixed; then no branch has to be reached
  --seed S     the seed (0)
  --count N    how many layouts of each kind (20000)
  --steps N    most single steps of the original's cutting; a layout that takes
               more is compared with the model (20000)
  --blocks N   most blocks of a walk that are compared (300)
  --help       this text
";

/// The kinds of layouts that are compared if none is named.
const KINDS: [&str; 7] = ["order", "fuse", "block", "refuse", "small", "still", "wide"];

/// A subject: its name, whether its library is linked, and its comparison, which
/// writes a report.
struct Subject {
    name: &'static str,
    linked: fn() -> Result<(), String>,
    compare: fn(&Task, &mut String) -> Result<(), String>,
}

const SUBJECTS: [Subject; 6] = [
    Subject {
        name: "parts",
        linked: port::parts::linked,
        compare: parts::compare,
    },
    Subject {
        name: "plans",
        linked: port::gougelily::linked,
        compare: plans::compare,
    },
    Subject {
        name: "walks",
        linked: || port::parts::linked().and(port::gougelily::linked()),
        compare: walks::compare,
    },
    Subject {
        name: "finding",
        linked: port::gougelily::linked,
        compare: finding::compare,
    },
    Subject {
        name: "marks",
        linked: port::gougelily::linked,
        compare: marks::compare,
    },
    Subject {
        name: "replay",
        linked: || port::parts::linked().and(port::gougelily::linked()),
        compare: replay::compare,
    },
];

fn kind(name: &str) -> Result<(&'static str, Kind), String> {
    let known = Kind::NAMES.into_iter().find(|(known, _)| *known == name);
    let layouts = known.filter(|&(_, kind)| kind != Kind::Walk);
    layouts.ok_or_else(|| format!("unknown kind {name:?}"))
}

fn run() -> Result<(), String> {
    let mut task = Task {
        seed: 0,
        count: 20_000,
        kinds: Vec::new(),
        whole: false,
        steps: 20_000,
        blocks: 300,
    };
    let mut subjects: Vec<&Subject> = Vec::new();
    let mut options = Options::of_process()?;
    let unwritable = |error| format!("the output cannot be written: {error}");
    while let Some(option) = options.next_option() {
        match option.as_str() {
            "--subject" => {
                let name = options.value(&option)?;
                let known = SUBJECTS.iter().find(|subject| subject.name == name);
                subjects.push(known.ok_or_else(|| format!("unknown subject {name:?}"))?);
            }
            "--kind" => task.kinds.push(kind(&options.value(&option)?)?),
            "--seed" => task.seed = options.number(&option)?,
            "--count" => task.count = options.number(&option)?,
            "--steps" => task.steps = options.number(&option)?,
            "--blocks" => task.blocks = options.number(&option)? as usize,
            "--help" => return stdout().write_all(HELP.as_bytes()).map_err(unwritable),
            _ => return Err(unknown(&option)),
        }
    }
    if subjects.is_empty() {
        subjects.extend(&SUBJECTS);
    }
    if task.kinds.is_empty() {
        task.whole = true;
        for name in KINDS {
            task.kinds.push(kind(name)?);
        }
    }
    subjects.iter().try_for_each(|subject| (subject.linked)())?;
    silence_caught_panics();
    for subject in subjects {
        let start = Instant::now();
        let mut report = String::new();
        let outcome = (subject.compare)(&task, &mut report);
        let seconds = start.elapsed().as_secs_f64();
        let text = format!("{}, {seconds:.1} s:\n{report}", subject.name);
        stdout().write_all(text.as_bytes()).map_err(unwritable)?;
        outcome?;
    }
    Ok(())
}

fn main() -> ExitCode {
    end("differential", run())
}
