//! The inputs reach what they are made for: each refusal that a call has, and acceptance.
#![cfg(live)]

use std::collections::BTreeMap;

use calls::{AlikeCall, FilteredLayout};
use compare::cases::{
    AlikeCase, Case, CensusCase, CoefficientsCase, ColumnCountCase, ContextsCase, CutCase,
    LayoutCase, OrdersCase, TransformCase,
};
use compare::driver::{run, Effort};
use compare::rng::Rng;

/// Runs a call against itself, and tells which refusals it did not meet.
fn not_met<C: Case>(case: &C, inputs: usize, numbers: &[u32]) -> Vec<u32> {
    let report = run(
        case,
        |input| case.expected(input),
        Effort::Inputs(inputs),
        1,
    );
    println!("{report}");
    assert!(report.difference.is_none(), "the Rust panics");
    let met = |number: &u32| report.by_number.contains_key(number);
    numbers
        .iter()
        .copied()
        .filter(|number| !met(number))
        .collect()
}

#[test]
fn every_refusal_is_met() {
    let none = Vec::<u32>::new();
    assert_eq!(not_met(&TransformCase, 1000, &[0, 5]), none);
    assert_eq!(not_met(&ColumnCountCase, 10_000, &[0, 2, 3, 11]), none);
    let layout = [0, 1, 2, 4, 5, 6, 7, 8, 9, 10, 11];
    assert_eq!(not_met(&LayoutCase, 40_000, &layout), none);
    assert_eq!(not_met(&CutCase, 20_000, &[0, 1, 2, 18]), none);
    assert_eq!(not_met(&AlikeCase, 20_000, &[0, 1, 2, 11, 18]), none);
    assert_eq!(not_met(&ContextsCase, 20_000, &[0, 1, 3, 12]), none);
    assert_eq!(not_met(&OrdersCase, 1000, &[0, 1, 3, 13, 15]), none);
    let coefficients = [0, 1, 2, 3, 11, 12, 13, 14, 15, 16, 17, 18, 24];
    let case = CoefficientsCase::new(1);
    assert_eq!(not_met(&case, 8000, &coefficients), none);
    assert_eq!(not_met(&CensusCase::default(), 8000, &[0, 11]), none);
}

/// What differs where two layouts are not alike, and each refusal, are met often; so are layouts
/// without blocks, which are alike though their sides differ.
#[test]
fn likeness_is_asked_with_every_difference() {
    const INPUTS: usize = 20_000;
    let mut rng = Rng::new(1);
    let mut met = BTreeMap::<String, usize>::new();
    for _ in 0..INPUTS {
        let call = AlikeCase.random(&mut rng);
        let said = match AlikeCase.expected(&call).answer {
            Ok(true) if sides(&call.left) != sides(&call.right) => "yes: without blocks".into(),
            Ok(true) => "yes".to_string(),
            Ok(false) => format!("no: {}", difference(&call)),
            Err(refusal) => refusal.number.to_string(),
        };
        *met.entry(said).or_default() += 1;
    }
    println!("{met:?}");
    let differences = [
        "one without blocks",
        "sides",
        "kinds",
        "hf_mul",
        "signs of zeros",
        "sigma",
        "several",
    ];
    let no = differences.map(|each| format!("no: {each}"));
    let others = ["yes", "yes: without blocks", "1", "2", "11", "18"].map(String::from);
    for said in no.iter().chain(&others) {
        let count = met.get(said).copied().unwrap_or_default();
        assert!(count >= INPUTS / 100, "{said}: {count}");
    }
}

fn sides(lent: &FilteredLayout) -> (usize, usize) {
    (lent.layout.bw, lent.layout.bh)
}

fn difference(call: &AlikeCall) -> &'static str {
    let (left, right) = (&call.left, &call.right);
    if AlikeCase.without_blocks(call) == Some(true) {
        return "one without blocks";
    }
    if sides(left) != sides(right) {
        return "sides";
    }
    let bits = |lent: &FilteredLayout| -> Vec<u32> {
        lent.sigma.iter().map(|sigma| sigma.to_bits()).collect()
    };
    let differ = [
        left.layout.kinds != right.layout.kinds,
        left.layout.hf_mul != right.layout.hf_mul,
        bits(left) != bits(right),
    ];
    match differ {
        [true, false, false] => "kinds",
        [false, true, false] => "hf_mul",
        [false, false, true] if left.sigma == right.sigma => "signs of zeros",
        [false, false, true] => "sigma",
        _ => "several",
    }
}
