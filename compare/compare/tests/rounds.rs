//! Comparisons that go on in turns, and what is told of them meanwhile.
#![cfg(live)]

use std::time::{Duration, Instant};

use compare::cases::{Case, CutCase, LayoutCase, OrdersCase, SignedCase, TransformCase};
use compare::driver::{run, Comparison, Effort, Report, Run};
use compare::progress::{Progress, EVERY};
use compare::rounds;

/// A call against itself.
fn agreeing<C: Case>(case: &'static C) -> Box<dyn Comparison> {
    Box::new(Run::new(case, |input| case.expected(input), 1))
}

/// A call against itself, but for inputs from 1,000 on.
fn differing() -> Box<dyn Comparison> {
    let ours = |&input: &u32| {
        let mut outcome = SignedCase.expected(&input);
        if input >= 1000 {
            outcome.answer = Ok(0);
        }
        outcome
    };
    Box::new(Run::new(&SignedCase, ours, 1))
}

#[test]
fn a_comparison_goes_on_where_it_was_left() {
    let whole = run(&CutCase, |i| CutCase.expected(i), Effort::Inputs(400), 1);
    let mut parts = agreeing(&CutCase);
    for _ in 0..4 {
        parts.advance(Effort::Inputs(100), &mut |_| ());
    }
    let parts = parts.report();
    assert_eq!((parts.short, parts.random), (200, 200));
    assert_eq!(parts.by_number, whole.by_number);
}

#[test]
fn time_is_shared_out() {
    let mut calls = [
        agreeing(&CutCase),
        agreeing(&OrdersCase),
        agreeing(&TransformCase),
    ];
    let total = Duration::from_secs(3);
    let start = Instant::now();
    rounds::run(&mut calls, total, &mut |_| ());
    assert!(start.elapsed() >= total);
    for report in calls.iter().map(|call| call.report()) {
        let share = report.seconds / total.as_secs_f64();
        assert!((0.1..0.7).contains(&share), "{}: {share}", report.name);
    }
    assert!(rounds::difference(&calls).is_none());
}

#[test]
fn the_first_difference_ends_all() {
    let mut calls = [agreeing(&CutCase), differing(), agreeing(&OrdersCase)];
    let total = Duration::from_secs(20);
    let start = Instant::now();
    rounds::run(&mut calls, total, &mut |_| ());
    assert!(start.elapsed() < total);
    let report = rounds::difference(&calls).expect("a difference");
    assert_eq!(report.name, SignedCase::NAME);
    assert_eq!(calls[2].report().inputs(), 0);
}

#[test]
fn a_table_counts_by_number() {
    let mut calls = [
        agreeing(&TransformCase),
        agreeing(&CutCase),
        agreeing(&LayoutCase),
    ];
    calls[0].advance(Effort::Inputs(100), &mut |_| ());
    calls[2].advance(Effort::Inputs(100), &mut |_| ());
    let table = rounds::table(&calls);
    let rows: Vec<_> = table.lines().collect();
    let report = calls[0].report();
    let (accepted, refused) = (report.by_number[&0], report.by_number[&5]);
    assert_eq!(rows.len(), 5);
    assert_eq!(accepted + refused, 100);
    let row = format!("| transform | 100 |  |  |  | {accepted} | 5: {refused} |");
    assert_eq!(rows[2], row);
    assert_eq!(rows[3], "| cut | 0 |  |  |  | 0 |  |");
    let report = calls[2].report();
    let told = [report.by_model, report.without_blocks];
    let [by_model, empty] = told.map(|count| count.expect("layouts tell it"));
    assert!((1..100).contains(&by_model) && (1..100).contains(&empty));
    let row = format!("| layout | 100 |  | {by_model} | {empty} |");
    assert!(rows[4].starts_with(&row));
    let columns = |row: &str| row.matches('|').count();
    assert!(rows.iter().all(|row| columns(row) == columns(rows[0])));
}

#[test]
fn progress_is_told_now_and_then() {
    let start = Instant::now();
    let mut progress = Progress::new(start);
    let report = Report {
        name: "cut",
        short: 3,
        random: 4,
        by_number: [(0, 5), (18, 2)].into(),
        ..Report::default()
    };
    let mut at = |seconds| progress.line(&report, start + Duration::from_secs(seconds));
    assert_eq!(at(EVERY.as_secs() - 1), None);
    let line = at(EVERY.as_secs()).expect("a line");
    assert!(
        line.starts_with("10 s: cut, 7 inputs, 5 accepted"),
        "{line}"
    );
    assert_eq!(at(19), None);
    assert!(at(25).is_some());
    assert_eq!(at(30), None);
}

#[test]
fn every_input_is_watched() {
    let mut seen = Vec::new();
    agreeing(&TransformCase).advance(Effort::Inputs(10), &mut |report| seen.push(report.inputs()));
    assert_eq!(seen, (1..=10).collect::<Vec<_>>());
}
