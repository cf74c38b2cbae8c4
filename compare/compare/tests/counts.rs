//! Counts that are not used up (document 02, No. 8): the Rust accepts them, the model refuses them,
//! and both read all else alike; the inputs meet them in every channel, and Netbuff answers those at
//! the last places as the model does.
#![cfg(live)]

use std::collections::BTreeMap;

use calls::{Answer, CoefficientsCall, Refusal};
use compare::cases::{Case, CoefficientsCase, CoefficientsInput};
use compare::expected::count_remains;
use compare::make::OrdersAndStore;
use compare::rng::Rng;
use jxl_vardct::oracle;

/// Short inputs at a stride, then so many random ones; all of them pass the checks before work.
fn inputs(random: usize) -> impl Iterator<Item = CoefficientsInput> {
    let case = CoefficientsCase::new(1);
    let short = (0..case.short_count()).step_by(7);
    let short: Vec<_> = short.map(|number| case.short(number)).collect();
    let mut rng = Rng::new(1);
    let random = std::iter::repeat_with(move || case.random(&mut rng)).take(random);
    let all = short.into_iter().chain(random);
    all.filter(|input| paper::coefficients_before_work(&input.call).is_none())
}

/// One Dct8 with a count in its first channel and these symbols behind it.
fn one_block(count: u32, behind: &[u32]) -> CoefficientsInput {
    let orders = OrdersAndStore::new(0, &[], vec![0; 15 * paper::ENTRIES_PER_CLUSTER]);
    let case = CoefficientsCase::over([orders]);
    let mut input = case.short(0);
    input.call.symbols = [&[count], behind].concat();
    input
}

fn rust(input: &CoefficientsInput) -> Answer<usize> {
    oracle::coefficients(&input.call, &input.orders.orders).answer
}

fn model(input: &CoefficientsInput) -> Answer<usize> {
    paper::coefficients(&input.call).answer
}

/// What docs/DIFFERENCES.md says of the Rust, which the comparison does not lend such symbols.
#[test]
fn the_rust_accepts_counts_that_are_not_used_up() {
    for (count, last) in [(1, 0), (2, 2), (32, 0)] {
        let places = [vec![0; 62], vec![last]].concat();
        let alone = one_block(count, &places);
        let two_counts = one_block(count, &[&places[..], &[0, 0]].concat());
        assert_eq!(rust(&alone), Err(Refusal::at(15, 64, 0)), "{count}");
        assert_eq!(rust(&two_counts), Ok(66), "{count}");
        for input in [alone, two_counts] {
            assert_eq!(model(&input), Err(Refusal::at(24, 64, 0)), "{count}");
        }
    }
    for (count, zeros, refused) in [(1, 62, (15, 63)), (33, 63, (17, 32))] {
        let input = one_block(count, &vec![0; zeros]);
        let refused = Err(Refusal::at(refused.0, refused.1, 0));
        assert_eq!((rust(&input), model(&input)), (refused, refused));
    }
}

/// The model is asked for calls in which count remains; where none does, the Rust shows that it is
/// right.
#[test]
fn coefficients_without_count_remaining() {
    let mut met = BTreeMap::<u32, usize>::new();
    for input in inputs(24_000) {
        let call = &input.call;
        let modelled = paper::coefficients(call);
        if count_remains(&modelled) {
            continue;
        }
        let rust = oracle::coefficients(call, &input.orders.orders);
        assert!(modelled == rust, "{call:?}");
        let number = rust.answer.map_or_else(|refusal| refusal.number, |_| 0);
        *met.entry(number).or_default() += 1;
    }
    println!("{met:?}");
    assert!(met.values().sum::<usize>() > 20_000);
    for number in [0, 3, 14, 15, 16, 17] {
        let count = met.get(&number).copied().unwrap_or_default();
        assert!(count > 100, "{number}: {count}");
    }
}

/// Where count remains, the Rust is lent the symbols up to there and behind them one that is too large
/// for a count. It takes that one for a count, so the last place was passed just there, or, where that
/// was the group's last channel, has ended without it. Before, it has written what the model has.
#[test]
fn up_to_the_last_place_the_rust_reads_the_same() {
    let mut met = BTreeMap::<bool, usize>::new();
    for input in inputs(8000) {
        let modelled = paper::coefficients(&input.call);
        if !count_remains(&modelled) {
            continue;
        }
        let read = modelled.answer.expect_err("24").x;
        let mut call = input.call.clone();
        call.symbols.truncate(read);
        call.symbols.push(u32::MAX);
        let mut rust = oracle::coefficients(&call, &input.orders.orders);
        let answer = rust.answer;
        let goes_on = answer == Err(Refusal::at(16, read + 1, 0));
        assert!(goes_on || answer == Ok(read), "{answer:?}: {call:?}");
        if goes_on {
            rust.buffers.log[read] = call.buffers.log[read];
        }
        assert!(rust.buffers == modelled.buffers, "{call:?}");
        let end = end(&call, read);
        let is_last = end.turn == 2 && end.is_last_varblock;
        assert_eq!(goes_on, !is_last, "{call:?}");
        *met.entry(goes_on).or_default() += 1;
    }
    println!("{met:?}");
    assert!(met[&true] > 500 && met[&false] > 100, "{met:?}");
}

/// Where a walk that is refused with 24 ended.
struct End {
    /// In the order in which channels are read: 1, 0, 2.
    turn: usize,
    blocks: usize,
    is_last_varblock: bool,
}

/// Goes through counts and coefficients up to so many symbols.
fn end(call: &CoefficientsCall, read: usize) -> End {
    let kinds = call.group.kinds.iter();
    let corners: Vec<_> = kinds.filter_map(|&kind| paper::kind_sides(kind)).collect();
    let mut symbols = call.symbols[..read].iter().peekable();
    for (corner, (wide, high)) in corners.iter().enumerate() {
        for turn in 0..3 {
            let mut remaining = *symbols.next().expect("a count");
            for _ in 0..63 * wide * high {
                if remaining > 0 {
                    remaining -= u32::from(*symbols.next().expect("a coefficient") != 0);
                }
            }
            if symbols.peek().is_none() {
                assert!(remaining > 0, "the count is used up");
                return End {
                    turn,
                    blocks: wide * high,
                    is_last_varblock: corner + 1 == corners.len(),
                };
            }
        }
    }
    unreachable!("more symbols than the group has places")
}

#[test]
fn count_remains_everywhere() {
    const RANDOM: usize = 8000;
    let case = CoefficientsCase::new(1);
    let mut rng = Rng::new(1);
    let mut met = BTreeMap::<String, usize>::new();
    for _ in 0..RANDOM {
        let input = case.random(&mut rng);
        let expected = case.expected(&input);
        if !count_remains(&expected) {
            continue;
        }
        let read = expected.answer.expect_err("24").x;
        let End {
            turn,
            blocks,
            is_last_varblock,
        } = end(&input.call, read);
        let told = [
            format!("channel {}", [1, 0, 2][turn]),
            format!("several blocks: {}", blocks > 1),
            format!("last varblock: {is_last_varblock}"),
            format!("shifted: {}", input.call.shift > 0),
            format!("symbols behind: {}", input.call.symbols.len() > read),
        ];
        for word in told {
            *met.entry(word).or_default() += 1;
        }
    }
    println!("{met:?}");
    assert_eq!(met.len(), 3 + 4 * 2);
    for (word, count) in met {
        assert!(count > RANDOM / 200, "{word}: {count}");
    }
}

#[test]
fn netbuff_at_the_last_places() {
    let case = CoefficientsCase::new(1);
    let mut met = BTreeMap::<u32, usize>::new();
    for number in 0..CoefficientsCase::LAST_PLACES {
        let input = case.short(number);
        let expected = case.expected(&input);
        assert!(ours::coefficients(&input.call) == expected, "{input:?}");
        let refusal = expected.answer.err();
        *met.entry(refusal.map_or(0, |refusal| refusal.number))
            .or_default() += 1;
    }
    println!("{met:?}");
    for number in [0, 15, 16, 17, 24] {
        assert!(met.contains_key(&number), "{number}");
    }
}
