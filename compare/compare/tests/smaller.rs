//! Smaller inputs never lead back, so that the search for the smallest that differs comes to an end.
#![cfg(live)]

use std::collections::HashSet;

use compare::cases::{
    AlikeCase, Case, CensusCase, CoefficientsCase, ColumnCountCase, ContextsCase, CutCase,
    LayoutCase, ReaderCase, SignedCase, TransformCase,
};
use compare::driver::{run, Effort};
use compare::rng::Rng;

const INPUTS: usize = 40;
/// Where an input is not made small in so many steps, it is left.
const STEPS: usize = 300;

/// Which of so many smaller inputs is taken next: the first, the last, any.
const TAKES: [fn(&mut Rng, usize) -> usize; 3] =
    [|_, _| 0, |_, of| of - 1, |rng, of| rng.below(of)];

/// From each input goes on to smaller ones, of which none comes twice; most of the ways come to their
/// end.
fn leads_on<C: Case>(case: &C, is_short: impl Fn(&C::Input) -> bool) {
    let mut rng = Rng::new(1);
    let mut ended = 0;
    for number in 0..INPUTS {
        let draw = |rng: &mut Rng| match number % 2 {
            0 => case.short(rng.below(case.short_count())),
            _ => case.random(rng),
        };
        let mut drawn = std::iter::repeat_with(|| draw(&mut rng));
        let input = drawn.find(&is_short).expect("a short one");
        for take in TAKES {
            ended += usize::from(walk(case, input.clone(), |of| take(&mut rng, of)));
        }
    }
    let ways = INPUTS * TAKES.len();
    assert!(2 * ended > ways, "{}: {ended} of {ways} end", C::NAME);
}

/// Whether the way comes to an end.
fn walk<C: Case>(case: &C, mut input: C::Input, mut take: impl FnMut(usize) -> usize) -> bool {
    let mut met = HashSet::new();
    for _ in 0..STEPS {
        let shown = format!("{input:?}");
        assert!(!met.contains(&shown), "{}: back at {shown}", C::NAME);
        met.insert(shown);
        let mut smaller = case.smaller(&input);
        if smaller.is_empty() {
            return true;
        }
        input = smaller.swap_remove(take(smaller.len()));
    }
    false
}

#[test]
fn numbers_and_bits() {
    leads_on(&TransformCase, |_| true);
    leads_on(&SignedCase, |_| true);
    leads_on(&ReaderCase, |_| true);
    leads_on(&CensusCase::default(), |_| true);
    leads_on(&ContextsCase, |call| call.map.len() < 60);
}

#[test]
fn column_counts_and_layouts() {
    leads_on(&ColumnCountCase, |_| true);
    leads_on(&LayoutCase, |call| {
        let pixels = u64::from(call.width) * u64::from(call.height);
        pixels < 1000 && call.sharpness.len() < 20
    });
}

#[test]
fn lent_layouts() {
    leads_on(&CutCase, |call| call.layout.kinds.len() < 20);
    leads_on(&AlikeCase, |call| {
        call.left.sigma.len() + call.right.sigma.len() < 20
    });
}

#[test]
fn coefficients() {
    let case = CoefficientsCase::new(1);
    leads_on(&case, |input| input.call.symbols.len() < 20);
}

/// A column count that is wrong for all grids without blocks, and for no others.
#[test]
fn a_strip_is_made_small() {
    let case = ColumnCountCase;
    let wrong = |input: &calls::ColumnCountCall| {
        let mut outcome = case.expected(input);
        if case.without_blocks(input) == Some(true) {
            outcome.answer = outcome
                .answer
                .map(|read| calls::ColumnCount { count: 0, ..read });
        }
        outcome
    };
    let report = run(&case, wrong, Effort::Inputs(2000), 1);
    let difference = report.difference.expect("a difference");
    let small = "bytes: [], width: 0, height: 0, modes: [0, 0, 0]";
    assert!(difference.contains(small), "not small: {difference}");
}
