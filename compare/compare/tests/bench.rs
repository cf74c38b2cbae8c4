//! The benchmark as a whole: its children, its table, what it refuses.
#![cfg(live)]

use std::process::{Command, Output};

fn bench(words: &[&str]) -> Output {
    let program = env!("CARGO_BIN_EXE_bench");
    let ended = Command::new(program).args(words).output();
    ended.expect("the benchmark runs")
}

fn text(bytes: &[u8]) -> String {
    String::from_utf8_lossy(bytes).into_owned()
}

#[test]
fn a_row_is_measured_by_a_process_each_round() {
    let ended = bench(&["--rounds", "2", "contexts, default"]);
    let (table, said) = (text(&ended.stdout), text(&ended.stderr));
    assert!(ended.status.success(), "{said}");
    assert!(said.contains("round 1 of 2") && said.contains("round 2 of 2"));
    let lines: Vec<&str> = table.lines().collect();
    let [machine, "", head, _, row] = lines[..] else {
        panic!("no table of one row:\n{table}");
    };
    assert!(machine.contains("rustc") && head.contains("| ratio | least | largest |"));
    let fields: Vec<&str> = row.split('|').map(str::trim).collect();
    assert_eq!(fields[1], "contexts, default");
    let [ratio, least, largest] = [4, 5, 6].map(|k| fields[k].parse::<f64>().expect("a ratio"));
    assert!(least <= ratio && ratio <= largest, "{row}");
}

#[test]
fn what_cannot_be_done_is_told_before_anything_is_measured() {
    let refused: [(&[&str], &str); 4] = [
        (&["contexts", "no row's name"], "no such row: no row's name"),
        (&["--child", "contexts"], "no such row: contexts"),
        (&["--svg", "no/such/folder/x.svg"], "no/such/folder/x.svg: "),
        (&["--rounds", "0"], "0 is no number of rounds"),
    ];
    for (words, problem) in refused {
        let ended = bench(words);
        assert_eq!(ended.status.code(), Some(2), "{words:?}");
        assert!(text(&ended.stderr).starts_with(problem), "{words:?}");
        assert!(ended.stdout.is_empty(), "{words:?}");
    }
}

#[test]
fn help_is_shown() {
    let ended = bench(&["--help"]);
    assert!(ended.status.success() && text(&ended.stdout).contains("--rounds N"));
}
