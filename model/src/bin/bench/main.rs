//! Measures the proved function against the model, on the same texts in one process.

mod instructions;
mod time;

use polungaw_model::text::Choice;
use polungaw_model::workload::Workload;
use polungaw_model::{entry, proved, runner};
use std::process::ExitCode;

const USAGE: &str = "usage: bench [--rounds COUNT | --instructions]";

/// The most bytes that the table may have.
const TABLE_LIMIT: usize = 8192;

/// How much longer than the output the buffers are.
const SPARE: usize = 16;

/// Which of the two functions is measured.
#[derive(Clone, Copy)]
enum Side {
    Proved,
    Model,
}

impl Side {
    fn run(self, text: &[u8], out: &mut [u8]) -> i64 {
        match self {
            Self::Proved => proved::run(text, out),
            Self::Model => entry::run(text, out),
        }
    }
}

/// A text that is measured, and the buffer that both sides fill.
struct Case {
    workload: Workload,
    choice: Choice,
    text: Vec<u8>,
    lines: usize,
    out: Vec<u8>,
}

impl Case {
    fn new(workload: Workload, choice: Choice) -> Self {
        let text = workload.text(choice);
        let printed = runner::run(&text);
        let lines = printed.iter().filter(|&&byte| byte == b'\n').count();
        let out = vec![0; printed.len() + SPARE];
        Self { workload, choice, text, lines, out }
    }

    fn all() -> impl Iterator<Item = Self> {
        Workload::ALL
            .into_iter()
            .flat_map(|workload| Choice::ALL.map(|choice| Self::new(workload, choice)))
    }

    fn pass(&mut self, side: Side) {
        let answer = side.run(&self.text, &mut self.out);
        assert!(answer >= 0, "the buffer suffices");
    }

    /// A line of the table, from what each side took for the whole text.
    fn row(&self, proved: f64, model: f64) -> String {
        let lines = self.lines as f64;
        format!(
            "{:<10}{:<13}{:>6}{:>14.1}{:>14.1}{:>8.2}",
            self.workload.name(),
            self.choice.name(),
            self.lines,
            proved / lines,
            model / lines,
            proved / model
        )
    }
}

/// The head of the table, for a unit that is counted for each line.
fn head(unit: &str) -> String {
    let [proved, model] = ["proved", "model"].map(|side| format!("{side} {unit}"));
    format!("{:<10}{:<13}{:>6}{proved:>14}{model:>14}{:>8}", "workload", "policy", "lines", "ratio")
}

fn main() -> ExitCode {
    let args: Vec<String> = std::env::args().skip(1).collect();
    let args: Vec<&str> = args.iter().map(String::as_str).collect();
    let outcome = match args[..] {
        [] => time::report(time::ROUNDS),
        ["--rounds", count] => match count.parse() {
            Ok(rounds) => time::report(rounds),
            Err(_) => Err(USAGE.into()),
        },
        ["--instructions"] => instructions::report(),
        ["--once", "proved"] => instructions::one_pass(Side::Proved),
        ["--once", "model"] => instructions::one_pass(Side::Model),
        _ => Err(USAGE.into()),
    };
    match outcome.and_then(|()| check_table_size()) {
        Ok(()) => ExitCode::SUCCESS,
        Err(told) => {
            eprintln!("{told}");
            ExitCode::FAILURE
        }
    }
}

fn check_table_size() -> Result<(), String> {
    let bytes = proved::table_bytes();
    println!("the proved table has {bytes} bytes, of {TABLE_LIMIT} allowed");
    if bytes > TABLE_LIMIT {
        return Err("the proved table is too large".into());
    }
    Ok(())
}
