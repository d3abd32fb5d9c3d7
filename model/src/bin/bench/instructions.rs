//! Instructions: each side runs once over every text under callgrind, which counts what is
//! executed inside the side's entry function.

use super::{Case, Side, head};
use std::path::{Path, PathBuf};
use std::process::{Command, Stdio};
use std::{env, fs, process};

impl Side {
    fn name(self) -> &'static str {
        match self {
            Self::Proved => "proved",
            Self::Model => "model",
        }
    }

    /// The function inside of which instructions count.
    fn entry(self) -> &'static str {
        match self {
            Self::Proved => "polungaw_run",
            Self::Model => "polungaw_model_run",
        }
    }
}

pub fn report() -> Result<(), String> {
    let cases: Vec<Case> = Case::all().collect();
    let [proved, model] = [counted(Side::Proved)?, counted(Side::Model)?];
    if proved.len() != cases.len() || model.len() != cases.len() {
        return Err("callgrind didn't see every pass".into());
    }
    println!("one pass of each side under callgrind, in instructions for each line");
    println!("{}", head("instr"));
    for (case, (proved, model)) in cases.iter().zip(proved.into_iter().zip(model)) {
        println!("{}", case.row(proved, model));
    }
    Ok(())
}

/// Runs the side once over every text. This is what callgrind watches.
pub fn one_pass(side: Side) -> Result<(), String> {
    Case::all().for_each(|mut case| case.pass(side));
    Ok(())
}

/// The instructions of each case in order.
fn counted(side: Side) -> Result<Vec<f64>, String> {
    let folder = env::temp_dir().join(format!("polungaw-bench-{}-{}", process::id(), side.name()));
    fs::create_dir_all(&folder).map_err(told)?;
    let counts = watch(side, &folder.join("out")).and_then(|file| totals(&file));
    fs::remove_dir_all(&folder).map_err(told)?;
    counts
}

/// Runs this program under callgrind, with a part for each call of the entry function.
fn watch(side: Side, file: &Path) -> Result<PathBuf, String> {
    let entry = side.entry();
    let status = Command::new("valgrind")
        .args(["--tool=callgrind", "--combine-dumps=yes"])
        .arg(format!("--toggle-collect={entry}"))
        .arg(format!("--dump-after={entry}"))
        .arg(format!("--callgrind-out-file={}", file.display()))
        .arg(env::current_exe().map_err(told)?)
        .args(["--once", side.name()])
        .stdout(Stdio::null())
        .stderr(Stdio::null())
        .status()
        .map_err(|fault| format!("valgrind can't be run: {fault}"))?;
    if !status.success() {
        return Err(format!("valgrind ended with {status}"));
    }
    Ok(file.to_path_buf())
}

/// The total of each part in callgrind's file that isn't 0.
fn totals(file: &Path) -> Result<Vec<f64>, String> {
    let profile = fs::read_to_string(file).map_err(told)?;
    let totals = profile.lines().filter_map(|line| line.strip_prefix("totals: "));
    let counts: Result<Vec<f64>, _> = totals.map(|total| total.trim().parse()).collect();
    let counts = counts.map_err(told)?;
    Ok(counts.into_iter().filter(|&count| count > 0.0).collect())
}

fn told(fault: impl std::fmt::Display) -> String {
    fault.to_string()
}
