//! Rounds of whole processes. What a process finds in memory, and where, is another in each of
//! them; and a moment in which the machine is slow falls on one round of many rows, not on all
//! rounds of one.

use std::path::Path;
use std::process::{Command, Stdio};
use std::time::Instant;

use crate::table::Row;
use crate::times::Times;

/// Measures the rows of these names so many times, round by round, each by a process of its own.
pub fn measure(names: &[String], growth: bool, rounds: usize) -> Result<Vec<Row>, String> {
    let program = std::env::current_exe().map_err(|e| format!("this program's file: {e}"))?;
    let mut rows: Vec<Row> = names.iter().map(|name| Row::new(name)).collect();
    let start = Instant::now();
    for round in 1..=rounds {
        for row in &mut rows {
            let times = child(&program, growth, &row.name)
                .map_err(|problem| format!("{}: {problem}", row.name))?;
            row.times.push(times);
        }
        let seconds = start.elapsed().as_secs();
        eprintln!("round {round} of {rounds}, {seconds} s");
    }
    Ok(rows)
}

fn child(program: &Path, growth: bool, name: &str) -> Result<Times, String> {
    let mut command = Command::new(program);
    command.args(growth.then_some("--growth"));
    command.args(["--child", name]).stderr(Stdio::inherit());
    let ended = command.output().map_err(|e| e.to_string())?;
    if !ended.status.success() {
        return Err(format!("its process failed: {}", ended.status));
    }
    let said = String::from_utf8_lossy(&ended.stdout);
    said.trim_end().parse()
}
