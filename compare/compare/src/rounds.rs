//! Several calls in turns for a given time, so that each of them has had about its share whenever
//! the comparison is broken off.

use std::time::{Duration, Instant};

use crate::driver::{Comparison, Effort, Report, Watch};

/// How many turns each call has, unless they would be too short or too long.
const TURNS: u32 = 8;
const SHORTEST: Duration = Duration::from_millis(250);
const LONGEST: Duration = Duration::from_secs(5);

pub type Comparisons = [Box<dyn Comparison>];

/// Runs the comparisons in turns for `total`, or to the first difference.
pub fn run(comparisons: &mut Comparisons, total: Duration, watch: Watch) {
    let start = Instant::now();
    let shares: u32 = comparisons.iter().map(|each| each.share()).sum();
    let turn = (total / TURNS / shares.max(1)).clamp(SHORTEST, LONGEST);
    while !comparisons.is_empty() {
        for comparison in comparisons.iter_mut() {
            let left = total.saturating_sub(start.elapsed());
            if left.is_zero() {
                return;
            }
            comparison.advance(Effort::Time((turn * comparison.share()).min(left)), watch);
            if comparison.report().difference.is_some() {
                return;
            }
        }
    }
}

/// The first difference that was found, with the report of its call.
pub fn difference(comparisons: &Comparisons) -> Option<&Report> {
    let mut reports = comparisons.iter().map(|comparison| comparison.report());
    reports.find(|report| report.difference.is_some())
}

/// One table: call, inputs, how many were different, how many held against the model in place of the
/// Rust and how many had a side of 0, accepted, refusals by number.
pub fn table(comparisons: &Comparisons) -> String {
    let mut table = String::from(
        "| call | inputs | different | by the model | without blocks | accepted | refused |\n\
         |--|--|--|--|--|--|--|\n",
    );
    for report in comparisons.iter().map(|comparison| comparison.report()) {
        let (name, inputs, accepted) = (report.name, report.inputs(), report.accepted());
        let told = |count: Option<usize>| count.map_or(String::new(), |n| n.to_string());
        let (different, by_model) = (told(report.different), told(report.by_model));
        let empty = told(report.without_blocks);
        let refusals = report.refusals();
        table += &format!(
            "| {name} | {inputs} | {different} | {by_model} | {empty} | {accepted} | {refusals} |\n"
        );
    }
    table
}
