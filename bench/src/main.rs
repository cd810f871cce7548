//! Times the port and the original in one run and prints the ratios as tables in
//! Markdown. Both are built for release. A ratio above 1 says that the port is
//! slower.

mod counting;
mod finding;
mod growth;
mod judging;
mod layouts;
mod marks;
mod parts;
mod planning;
mod sessions;
mod summing;
mod texts;
mod timing;
mod visits;
mod walking;
mod windows;

use counting::Side;
use std::io::{stdout, Write};
use std::process::ExitCode;
use tools::options::{end, unknown, Options};

const HELP: &str = "\
bench: times the port and the original, and prints the ratios as tables

  --only WHAT      only this table: planning, growth, windows, walking, finding, visits,
                   marks, texts, judging, summing, sessions or parts; may be repeated
  --runs N         short runs of each side, of which the best counts (2000)
  --seed S         the seed of the layouts for parts (0)
  --instructions   count instructions of planning too, with valgrind
  --help           this text
";

/// What is asked of a run.
struct Asked {
    only: Vec<String>,
    runs: u64,
    seed: u64,
    instructions: bool,
}

impl Asked {
    fn wants(&self, what: &str) -> bool {
        self.only.is_empty() || self.only.iter().any(|only| only == what)
    }
}

/// A ratio, with its first digits.
fn shown(ratio: f64) -> String {
    if ratio < 0.05 {
        return format!("{ratio:.4}");
    }
    format!("{ratio:.2}")
}

fn planning_table(asked: &Asked, out: &mut impl Write) -> Result<(), String> {
    let rows = planning::times(asked.runs);
    let mut text = String::from("| layout | purpose | Rust ns | port ns | ratio | by value ns |");
    let mut rule = String::from("|---|---|---|---|---|---|");
    if asked.instructions {
        text.push_str(" Rust instructions | port instructions | ratio |");
        rule.push_str("---|---|---|");
    }
    text = format!("## Planning\n\n{text}\n{rule}\n");
    let mut ratios = Vec::new();
    for (at, row) in rows.iter().enumerate() {
        let ratio = row.port / row.original;
        ratios.push(ratio);
        text += &format!(
            "| {} | {} | {:.0} | {:.0} | {} | {:.0} |",
            row.name,
            row.purpose,
            row.original,
            row.port,
            shown(ratio),
            row.by_value
        );
        if asked.instructions {
            let original = counting::instructions(Side::Original, at)?;
            let port = counting::instructions(Side::Port, at)?;
            let ratio = port as f64 / original as f64;
            text += &format!(" {original} | {port} | {} |", shown(ratio));
        }
        text.push('\n');
    }
    ratios.sort_by(f64::total_cmp);
    let (median, most) = (ratios[ratios.len() / 2], ratios[ratios.len() - 1]);
    text += &format!("\nThe median ratio is {median:.2}, the greatest {most:.2}.\n\n");
    put(out, &text)
}

fn growth_table(asked: &Asked, out: &mut impl Write) -> Result<(), String> {
    let mut text = String::from(
        "## Planning, as it grows\n\n| operands | rank | Rust ns | port ns | ratio |\n|---|---|---|---|---|\n",
    );
    for row in growth::times(asked.runs) {
        let ratio = shown(row.port / row.original);
        text += &format!(
            "| {} | {} | {:.0} | {:.0} | {ratio} |\n",
            row.operands, row.rank, row.original, row.port
        );
    }
    text.push('\n');
    put(out, &text)
}

fn windows_table(asked: &Asked, out: &mut impl Write) -> Result<(), String> {
    let mut text = String::from("## Windows\n\n| rank | operands | ns |\n|---|---|---|\n");
    for row in windows::times(asked.runs) {
        text += &format!(
            "| {} | {} | {:.0} |\n",
            row.rank, row.operands, row.nanoseconds
        );
    }
    text.push('\n');
    put(out, &text)
}

fn walking_table(asked: &Asked, out: &mut impl Write) -> Result<(), String> {
    let head = "| plan | blocks | Rust, writing, ns | many steps ns | ratio | Rust, summing, ns | step ns | ratio | by value ns | lent ns |";
    let rule = "|---|---|---|---|---|---|---|---|---|---|";
    let mut text = format!("## Walking, per block\n\n{head}\n{rule}\n");
    for row in walking::times(asked.runs.div_ceil(20)) {
        let (many, step) = (row.many / row.written, row.step / row.summed);
        text += &format!(
            "| {} | {} | {:.1} | {:.1} | {many:.2} | {:.1} | {:.0} | {step:.1} | {:.0} | {:.0} |\n",
            row.name,
            row.blocks,
            row.written,
            row.many,
            row.summed,
            row.step,
            row.by_value,
            row.lent
        );
    }
    text.push('\n');
    put(out, &text)
}

fn finding_table(asked: &Asked, out: &mut impl Write) -> Result<(), String> {
    let head = "| layout | operands | axes of the plan | original index ns | plan index ns | step ns | plan ns |";
    let rule = "|---|---|---|---|---|---|---|";
    let mut text = format!("## Index finding, and a step\n\n{head}\n{rule}\n");
    for row in finding::times(asked.runs) {
        text += &format!(
            "| {} | {} | {} | {:.0} | {:.0} | {:.0} | {:.0} |\n",
            row.name, row.operands, row.rank, row.original, row.in_plan, row.step, row.plan
        );
    }
    text.push('\n');
    put(out, &text)
}

fn visits_table(asked: &Asked, out: &mut impl Write) -> Result<(), String> {
    let head =
        "| layout | operands | axes of the plan | step and original index ns | visit ns | ratio |";
    let mut text = format!("## Visits\n\n{head}\n|---|---|---|---|---|---|\n");
    for row in visits::times(asked.runs) {
        text += &format!(
            "| {} | {} | {} | {:.0} | {:.0} | {} |\n",
            row.name,
            row.operands,
            row.rank,
            row.apart,
            row.visit,
            shown(row.visit / row.apart)
        );
    }
    text.push('\n');
    put(out, &text)
}

fn marks_table(asked: &Asked, out: &mut impl Write) -> Result<(), String> {
    let mut text = String::from(
        "## The repeat mark\n\n| layout | mark | Rust, sorting, ns | port ns | ratio |\n|---|---|---|---|---|\n",
    );
    for row in marks::times(asked.runs.div_ceil(4)) {
        let mark = ["no", "yes", "undecided"][row.answer as usize];
        text += &format!(
            "| {} | {mark} | {:.0} | {:.0} | {} |\n",
            row.name,
            row.plain,
            row.port,
            shown(row.port / row.plain)
        );
    }
    text.push('\n');
    put(out, &text)
}

fn texts_table(asked: &Asked, out: &mut impl Write) -> Result<(), String> {
    let mut text =
        String::from("## Texts\n\n| text | bytes | answer | microseconds |\n|---|---|---|---|\n");
    for row in texts::times(asked.runs) {
        let micros = row.nanoseconds / 1000.0;
        text += &format!(
            "| {} | {} | {} | {micros:.1} |\n",
            row.name, row.bytes, row.answer
        );
    }
    text.push('\n');
    put(out, &text)
}

fn judging_table(asked: &Asked, out: &mut impl Write) -> Result<(), String> {
    let mut text = String::from(
        "## Judging\n\n| visits | bytes | answer | Rust microseconds | port microseconds | ratio | MB/s |\n|---|---|---|---|---|---|---|\n",
    );
    for row in judging::times(asked.runs) {
        let (plain, port) = (row.plain / 1000.0, row.port / 1000.0);
        let (ratio, speed) = (shown(port / plain), row.bytes as f64 / port);
        text += &format!(
            "| {} | {} | {} | {plain:.1} | {port:.1} | {ratio} | {speed:.0} |\n",
            row.name, row.bytes, row.answer
        );
    }
    text.push('\n');
    put(out, &text)
}

fn summing_table(asked: &Asked, out: &mut impl Write) -> Result<(), String> {
    let mut text = String::from(
        "## Summaries\n\n| cells | number | Rust ns a cell | port ns a cell | ratio | a bare sum ns a cell |\n|---|---|---|---|---|---|\n",
    );
    for row in summing::times(asked.runs) {
        let ratio = shown(row.port / row.plain);
        text += &format!(
            "| {} | {} | {:.2} | {:.2} | {ratio} | {:.2} |\n",
            row.name, row.cells, row.plain, row.port, row.alone
        );
    }
    text.push('\n');
    put(out, &text)
}

fn sessions_table(asked: &Asked, out: &mut impl Write) -> Result<(), String> {
    let head = "| layout | operands | two plannings ns | join ns | ratio | leave ns | ratio |";
    let mut text = format!("## Sessions\n\n{head}\n|---|---|---|---|---|---|---|\n");
    for row in sessions::times(asked.runs) {
        let (join, leave) = (row.join / row.plannings, row.leave / row.plannings);
        text += &format!(
            "| {} | {} | {:.0} | {:.0} | {} | {:.0} | {} |\n",
            row.name,
            row.operands,
            row.plannings,
            row.join,
            shown(join),
            row.leave,
            shown(leave)
        );
    }
    text.push('\n');
    put(out, &text)
}

fn parts_table(asked: &Asked, out: &mut impl Write) -> Result<(), String> {
    let mut text = String::from(
        "## Parts\n\n| function | rank | operands | Rust ns | port ns | ratio |\n|---|---|---|---|---|---|\n",
    );
    for row in parts::times(asked.seed, asked.runs) {
        let ratio = row.port / row.original;
        text += &format!(
            "| {} | {} | {} | {:.0} | {:.0} | {ratio:.2} |\n",
            row.name, row.rank, row.operands, row.original, row.port
        );
    }
    text.push('\n');
    put(out, &text)
}

fn put(out: &mut impl Write, text: &str) -> Result<(), String> {
    let unwritable = |error| format!("the output cannot be written: {error}");
    out.write_all(text.as_bytes()).map_err(unwritable)
}

fn run() -> Result<(), String> {
    let mut asked = Asked {
        only: Vec::new(),
        runs: 2000,
        seed: 0,
        instructions: false,
    };
    let mut options = Options::of_process()?;
    let mut out = stdout().lock();
    while let Some(option) = options.next_option() {
        match option.as_str() {
            "--only" => asked.only.push(options.value(&option)?),
            "--runs" => asked.runs = options.number(&option)?,
            "--seed" => asked.seed = options.number(&option)?,
            "--instructions" => asked.instructions = true,
            "--counted" => {
                let task = options.value(&option)?;
                return counting::counted(&planning::layouts(), &task);
            }
            "--help" => return put(&mut out, HELP),
            _ => return Err(unknown(&option)),
        }
    }
    if [
        "planning", "growth", "windows", "walking", "finding", "visits", "marks", "texts",
        "judging", "summing", "sessions",
    ]
    .iter()
    .any(|what| asked.wants(what))
    {
        port::gougelily::linked()?;
    }
    if ["walking", "parts"].iter().any(|what| asked.wants(what)) {
        port::parts::linked()?;
    }
    if asked.wants("planning") {
        planning_table(&asked, &mut out)?;
    }
    if asked.wants("growth") {
        growth_table(&asked, &mut out)?;
    }
    if asked.wants("windows") {
        windows_table(&asked, &mut out)?;
    }
    if asked.wants("walking") {
        walking_table(&asked, &mut out)?;
    }
    if asked.wants("finding") {
        finding_table(&asked, &mut out)?;
    }
    if asked.wants("visits") {
        visits_table(&asked, &mut out)?;
    }
    if asked.wants("marks") {
        marks_table(&asked, &mut out)?;
    }
    if asked.wants("texts") {
        texts_table(&asked, &mut out)?;
    }
    if asked.wants("judging") {
        judging_table(&asked, &mut out)?;
    }
    if asked.wants("summing") {
        summing_table(&asked, &mut out)?;
    }
    if asked.wants("sessions") {
        sessions_table(&asked, &mut out)?;
    }
    if asked.wants("parts") {
        parts_table(&asked, &mut out)?;
    }
    Ok(())
}

fn main() -> ExitCode {
    end("bench", run())
}
