//! The driver finds planted differences and makes their inputs small.
#![cfg(live)]

use compare::cases::{Case, CoefficientsCase, CoefficientsInput, LayoutCase, OrdersCase};
use compare::driver::{run, Effort};

#[test]
fn a_truncated_hf_mul_is_found() {
    let truncated = |input: &calls::LayoutCall| {
        let mut outcome = LayoutCase.expected(input);
        let buffers = &mut outcome.buffers;
        for (sigma, &hf_mul) in buffers.sigma.iter_mut().zip(&buffers.hf_mul) {
            if hf_mul > 1 << 24 && hf_mul % 2 != 0 {
                *sigma = f32::from_bits(sigma.to_bits() ^ 1);
            }
        }
        outcome
    };
    let report = run(&LayoutCase, truncated, Effort::Inputs(100_000), 1);
    let difference = report.difference.expect("a difference");
    println!("{difference}");
    assert!(difference.contains("width: 1,"), "not small");
}

#[test]
fn a_swapped_place_is_found() {
    let swapped = |input: &calls::OrdersCall| {
        let mut outcome = OrdersCase.expected(input);
        if outcome.answer.is_ok_and(|read| read > 3) {
            outcome.buffers.swap(2, 3);
        }
        outcome
    };
    let report = run(&OrdersCase, swapped, Effort::Inputs(1000), 1);
    let difference = report.difference.expect("a difference");
    let input = difference.lines().next().expect("a line").to_string();
    println!("{input}");
    assert!(input.len() < 200, "not small");
}

#[test]
fn a_coefficient_call_is_made_small() {
    let case = CoefficientsCase::new(1);
    let large = |input: &CoefficientsInput| input.call.symbols.iter().any(|&symbol| symbol > 1000);
    let lost = |input: &CoefficientsInput| {
        let mut outcome = case.expected(input);
        if outcome.answer.is_ok() && large(input) {
            let first = outcome.buffers.grids[1].first_mut();
            first.into_iter().for_each(|cell| *cell ^= 1);
        }
        outcome
    };
    let report = run(&case, lost, Effort::Inputs(400), 1);
    let difference = report.difference.expect("a difference");
    let input = difference.lines().next().expect("a line").to_string();
    println!("{input}");
    for small in ["bw: 1, bh: 1", "lf: None", "presets: 1,", "shift: 0"] {
        assert!(input.contains(small), "not small: {small}");
    }
}
