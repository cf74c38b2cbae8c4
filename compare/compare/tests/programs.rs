//! The words that compare and record take and refuse. What bench does with its words is in bench.rs.

use std::process::{Command, Output};

fn run(program: &str, words: &[&str]) -> Output {
    let ended = Command::new(program).args(words).output();
    ended.expect("the program runs")
}

fn text(bytes: &[u8]) -> String {
    String::from_utf8_lossy(bytes).into_owned()
}

const PROGRAMS: [&str; 3] = [
    env!("CARGO_BIN_EXE_compare"),
    env!("CARGO_BIN_EXE_bench"),
    env!("CARGO_BIN_EXE_record"),
];

#[test]
fn help_is_shown_by_each() {
    for program in PROGRAMS {
        let ended = run(program, &["--help"]);
        assert!(
            ended.status.success() && ended.stderr.is_empty(),
            "{program}"
        );
        assert!(text(&ended.stdout).contains("--help"), "{program}");
    }
}

#[test]
#[cfg(live)]
fn wrong_words_are_refused_by_each() {
    for program in PROGRAMS {
        for words in [&["--nonsense"][..], &["--check"], &["no-such-row-or-call"]] {
            let ended = run(program, words);
            assert_eq!(ended.status.code(), Some(2), "{program} {words:?}");
            assert!(ended.stdout.is_empty() && !ended.stderr.is_empty());
        }
    }
}

#[test]
#[cfg(live)]
fn numbers_that_are_none_are_told() {
    let compare = env!("CARGO_BIN_EXE_compare");
    let ended = run(compare, &["--seconds", "five"]);
    assert_eq!(ended.status.code(), Some(2));
    assert_eq!(text(&ended.stderr), "five is no number from 1 on\n");
}

#[test]
#[cfg(live)]
fn a_file_that_cannot_be_read_is_told() {
    let ended = run(env!("CARGO_BIN_EXE_record"), &["--check", "no/such/file"]);
    assert_eq!(ended.status.code(), Some(2));
    assert!(text(&ended.stderr).starts_with("no/such/file: "));
}

#[test]
#[cfg(not(live))]
fn without_the_rust_only_the_comparison_is_left_out() {
    for program in PROGRAMS {
        let ended = run(program, &[]);
        let left_out = program == PROGRAMS[0];
        assert_eq!(ended.status.success(), left_out, "{program}");
        let said = text(if left_out {
            &ended.stdout
        } else {
            &ended.stderr
        });
        assert!(said.contains("left out"), "{program}: {said}");
    }
}
