//! Strips without blocks (document 02, No. 2): the Rust runs on them and the model agrees; the inputs
//! meet each answer that there is; Netbuff answers them as expected; planted differences are found.
#![cfg(live)]

use std::collections::BTreeMap;

use calls::{
    Answer, CoefficientBuffers, CoefficientsCall, ColumnCount, ColumnCountCall, CutCall,
    LayoutBuffers, LayoutCall, Outcome, Refusal,
};
use compare::cases::{
    AlikeCase, Case, CoefficientsCase, CoefficientsInput, ColumnCountCase, CutCase, LayoutCase,
};
use compare::driver::{run, Effort};
use compare::expected::has_types_above_a_byte;
use compare::make::{self, OrdersAndStore};
use compare::rng::Rng;
use jxl_vardct::oracle;

const MODES: [[u32; 3]; 5] = [[0; 3], [1, 0, 0], [0, 2, 0], [0, 0, 3], [2, 3, 1]];
const COLUMNS: [&[(i32, i32)]; 2] = [&[], &[(0, 0), (99, -7)]];

/// All sides of LF groups that have no blocks.
fn pixels() -> impl Iterator<Item = (u32, u32)> {
    (0..=2048).flat_map(|side| [(0, side), (side, 0)])
}

#[test]
fn the_rust_makes_empty_layouts() {
    for (width, height) in pixels() {
        for (modes, columns) in MODES.into_iter().zip(COLUMNS.into_iter().cycle()) {
            let mut call = make::layout(width, height, columns);
            (call.modes, call.filter) = (modes, (width > 0).then_some(0.5));
            let rust = oracle::layout(&call);
            let empty = Outcome {
                answer: Ok(0),
                buffers: LayoutBuffers::default(),
            };
            assert!(rust == empty && paper::layout(&call) == empty, "{call:?}");
            let sides = paper::grid_sides(width, height, modes);
            assert_eq!(oracle::grid_sides(&call), Some(sides), "{call:?}");
            assert!(sides.0 == 0 || sides.1 == 0);
        }
    }
}

#[test]
fn the_rust_reads_no_bits_for_a_column_count_of_1() {
    let one = ColumnCount {
        count: 1,
        bits_read: 0,
    };
    for (width, height) in pixels() {
        for modes in MODES {
            for bytes in [vec![], vec![0xff; 3]] {
                let call = ColumnCountCall {
                    bytes,
                    width,
                    height,
                    modes,
                };
                assert_eq!(oracle::column_count(&call), Ok(one), "{call:?}");
            }
        }
    }
}

/// A coefficient call over a group of these sides with so many presets.
fn coefficients(
    orders: &OrdersAndStore,
    (bw, bh): (usize, usize),
    presets: u32,
    bytes: &[u8],
) -> CoefficientsCall {
    let group = calls::Layout {
        bw,
        bh,
        ..calls::Layout::default()
    };
    let mut call = orders.coefficients(group, make::default_contexts(), &[7, 0]);
    let entries = call.cluster_map.len() * presets as usize;
    call.presets = presets;
    call.cluster_map = orders.cluster_map[..entries].to_vec();
    call.bytes = bytes.to_vec();
    call.buffers.log = vec![make::USED_BYTE; 3];
    call
}

#[test]
fn the_rust_reads_the_preset_of_an_empty_group_and_no_symbol() {
    let map = vec![9; 3 * 15 * paper::ENTRIES_PER_CLUSTER];
    let orders = OrdersAndStore::new(0, &[], map);
    let answers: [(u32, &[u8], Answer<usize>); 7] = [
        (1, &[], Ok(0)),
        (2, &[1], Ok(0)),
        (3, &[2], Ok(0)),
        (2, &[], Err(Refusal::at(3, 0, 0))),
        (3, &[3], Err(Refusal::at(14, 2, 0))),
        (0, &[], Err(Refusal::at(14, 0, 0))),
        (0, &[1], Err(Refusal::at(14, 0, 0))),
    ];
    for sides in (0..=32).flat_map(|side| [(0, side), (side, 0)]) {
        for (presets, bytes, answer) in answers {
            for lf in [None, Some(Default::default())] {
                let mut call = coefficients(&orders, sides, presets, bytes);
                call.lf = lf;
                let untouched = Outcome {
                    answer,
                    buffers: call.buffers.clone(),
                };
                assert_eq!(paper::coefficients_before_work(&call), None);
                let rust = oracle::coefficients(&call, &orders.orders);
                assert!(rust == untouched, "{rust:?}: {call:?}");
                assert!(paper::coefficients(&call) == untouched, "{call:?}");
            }
        }
    }
}

/// The short inputs of a case that are about strips.
fn strips<C: Case>(
    case: &C,
    numbers: std::ops::Range<usize>,
) -> impl Iterator<Item = C::Input> + '_ {
    numbers.map(|number| case.short(number))
}

fn layouts() -> impl Iterator<Item = LayoutCall> {
    strips(&LayoutCase, 0..LayoutCase::STRIPS)
}

fn groups(case: &CoefficientsCase) -> impl Iterator<Item = CoefficientsInput> + '_ {
    let first = CoefficientsCase::LAST_PLACES;
    strips(case, first..first + CoefficientsCase::STRIPS)
}

/// The comparison lends the Rust what passes the checks before work, and the model answers it alike.
#[test]
fn the_model_answers_as_the_rust() {
    let mut compared = [0; 2];
    for call in layouts() {
        if paper::layout_before_work(&call).is_none() && !has_types_above_a_byte(&call) {
            assert!(paper::layout(&call) == oracle::layout(&call), "{call:?}");
            compared[0] += 1;
        }
    }
    for input in groups(&CoefficientsCase::new(1)) {
        if paper::coefficients_before_work(&input.call).is_none() {
            let rust = oracle::coefficients(&input.call, &input.orders.orders);
            assert!(paper::coefficients(&input.call) == rust, "{input:?}");
            compared[1] += 1;
        }
    }
    println!("{compared:?}");
    assert!(compared[0] > 500 && compared[1] > 500, "{compared:?}");
}

/// How often each answer is met; 0 is accepted.
type Met = BTreeMap<u32, usize>;

fn count<T>(met: &mut Met, answer: &Answer<T>) {
    let number = answer.as_ref().map_or_else(|refusal| refusal.number, |_| 0);
    *met.entry(number).or_default() += 1;
}

/// What is expected of inputs, and that Netbuff answers so.
fn netbuff<C: Case>(
    case: &C,
    inputs: impl Iterator<Item = C::Input>,
    ours: impl Fn(&C::Input) -> Outcome<C::Value, C::Buffers>,
) -> Vec<u32> {
    let mut met = Met::new();
    for input in inputs {
        let expected = case.expected(&input);
        assert!(ours(&input) == expected, "{}: {input:?}", C::NAME);
        count(&mut met, &expected.answer);
    }
    println!("{}: {met:?}", C::NAME);
    met.into_keys().collect()
}

#[test]
fn netbuff_on_strips() {
    let counts = (0..ColumnCountCase.short_count()).map(|number| ColumnCountCase.short(number));
    let counts = counts.filter(|call| ColumnCountCase.without_blocks(call) == Some(true));
    let met = netbuff(&ColumnCountCase, counts, ours::column_count);
    assert_eq!(met, [0, 2, 11]);
    assert_eq!(netbuff(&LayoutCase, layouts(), ours::layout), [0, 1, 2, 11]);
    let cuts = strips(&CutCase, 0..CutCase::STRIPS);
    assert_eq!(netbuff(&CutCase, cuts, ours::cut), [2]);
    let pairs = strips(&AlikeCase, 0..AlikeCase::STRIPS);
    assert_eq!(netbuff(&AlikeCase, pairs, ours::alike), [0, 1, 2, 11]);
    let case = CoefficientsCase::new(1);
    let met = netbuff(&case, groups(&case), |input| {
        ours::coefficients(&input.call)
    });
    assert_eq!(met, [0, 1, 2, 3, 11, 12, 13, 14]);
}

#[test]
fn netbuff_on_all_sides() {
    let widest = [(0, 2049), (2049, 0), (0, u32::MAX), (u32::MAX, 0)];
    let plain = |(width, height)| make::layout(width, height, &[(0, 0)]);
    let met = netbuff(&LayoutCase, pixels().chain(widest).map(plain), ours::layout);
    assert_eq!(met, [0, 2]);
    let sides = (0..=257).flat_map(|side| [(0, side), (side, 0)]);
    let indices = |sides| (0..=64).map(move |group| (sides, group));
    let cuts = sides.flat_map(indices).map(|((bw, bh), group)| CutCall {
        layout: calls::Layout {
            bw,
            bh,
            ..calls::Layout::default()
        },
        group,
        kinds: Vec::new(),
        hf_mul: Vec::new(),
    });
    assert_eq!(netbuff(&CutCase, cuts, ours::cut), [2]);
}

/// The share of strips among random inputs, and what is answered to them.
fn random<C: Case>(case: &C, inputs: usize) -> Vec<u32> {
    let mut rng = Rng::new(1);
    let mut met = Met::new();
    for _ in 0..inputs {
        let input = case.random(&mut rng);
        if case.without_blocks(&input).expect("told") {
            count(&mut met, &case.expected(&input).answer);
        }
    }
    println!("{}: {met:?}", C::NAME);
    let share = met.values().sum::<usize>() as f64 / inputs as f64;
    assert!((0.08..0.3).contains(&share), "{}: {share}", C::NAME);
    met.into_keys().collect()
}

#[test]
fn random_inputs_meet_strips() {
    assert_eq!(random(&ColumnCountCase, 4000), [0, 2, 11]);
    assert_eq!(random(&LayoutCase, 8000), [0, 1, 2, 11]);
    assert_eq!(random(&CutCase, 4000), [2]);
    assert_eq!(random(&AlikeCase, 8000), [0, 1, 2, 11, 18]);
    let case = CoefficientsCase::new(1);
    assert_eq!(random(&case, 6000), [0, 1, 2, 3, 11, 12, 13, 14]);
}

/// Runs a case against itself, changed where a strip is lent; the input of the difference.
fn planted<C: Case>(
    case: &C,
    what: &str,
    change: impl Fn(&C::Input, &mut Outcome<C::Value, C::Buffers>),
) -> String {
    let wrong = |input: &C::Input| {
        let mut outcome = case.expected(input);
        if case.without_blocks(input) == Some(true) {
            change(input, &mut outcome);
        }
        outcome
    };
    let report = run(case, wrong, Effort::Inputs(4000), 1);
    let difference = report.difference.unwrap_or_else(|| panic!("{what}"));
    let input = difference.lines().next().expect("a line").to_string();
    println!("{what}: {input}");
    input
}

#[test]
fn planted_layouts_are_found() {
    let small = "width: 0, height: 0, modes: [0, 0, 0], types: []";
    let refused = planted(&LayoutCase, "0 refused", |_, outcome| {
        outcome.answer = outcome.answer.and(Err(Refusal::plain(2)));
    });
    assert!(refused.contains(small));
    let used = planted(&LayoutCase, "a column used", |input, outcome| {
        let used = input.types.len().min(1);
        outcome.answer = outcome.answer.map(|_| used);
    });
    assert!(used.contains("width: 0, height: 0, modes: [0, 0, 0], types: [0], muls: [0]"));
    for number in [1, 2, 11] {
        planted(&LayoutCase, "a check left out", |_, outcome| {
            if outcome.answer == Err(Refusal::plain(number)) {
                outcome.answer = Ok(0);
            }
        });
    }
}

#[test]
fn planted_counts_and_cuts_are_found() {
    planted(&ColumnCountCase, "a bit read", |_, outcome| {
        outcome.answer = outcome.answer.map(|read| ColumnCount {
            bits_read: 1,
            ..read
        });
    });
    planted(&ColumnCountCase, "no bytes refused", |input, outcome| {
        if input.bytes.is_empty() {
            outcome.answer = outcome.answer.and(Err(Refusal::at(3, 0, 0)));
        }
    });
    let cut = planted(&CutCase, "a group of none", |input, outcome| {
        if input.group == 0 && input.kinds.is_empty() {
            outcome.answer = Ok((0, 0));
        }
    });
    assert!(cut.contains("bw: 0, bh: 0, kinds: [], hf_mul: [] }, group: 0"));
    planted(&CutCase, "lengths first", |input, outcome| {
        if !input.kinds.is_empty() {
            outcome.answer = Err(Refusal::plain(1));
        }
    });
}

#[test]
fn planted_likenesses_are_found() {
    let sides = planted(&AlikeCase, "sides compared", |input, outcome| {
        let [left, right] = [&input.left.layout, &input.right.layout];
        let same = (left.bw, left.bh) == (right.bw, right.bh);
        outcome.answer = outcome.answer.map(|yes| yes && same);
    });
    assert!(sides.contains("kinds: [], hf_mul: [] }, sigma: [] }, right"));
    planted(&AlikeCase, "none like all", |_, outcome| {
        outcome.answer = outcome.answer.map(|_| true);
    });
}

#[test]
fn planted_coefficients_are_found() {
    let case = CoefficientsCase::new(1);
    type Outcomes = Outcome<usize, CoefficientBuffers>;
    let accepting = |number: u32| {
        move |_: &CoefficientsInput, outcome: &mut Outcomes| {
            let refusal = outcome.answer.err();
            if refusal.is_some_and(|refusal| refusal.number == number) {
                outcome.answer = Ok(0);
            }
        }
    };
    for number in [1, 2, 3, 11, 12, 13, 14] {
        planted(&case, "a check left out", accepting(number));
    }
    let read = planted(&case, "a symbol read", |input, outcome| {
        let read = input.call.symbols.len().min(1);
        outcome.answer = outcome.answer.map(|_| read);
    });
    assert!(read.contains("bw: 0, bh: 0") && read.contains("symbols: [0],"));
    planted(&case, "a log written", |_, outcome| {
        if outcome.answer.is_ok() {
            let first = outcome.buffers.log.first_mut();
            first.into_iter().for_each(|byte| *byte ^= 1);
        }
    });
}
