use calls::{CoefficientBuffers, CoefficientsCall};

use super::{row, say, Calls, Said};
use crate::entries::Entries;
use crate::expected;
use crate::make::{self, OrdersAndStore};

/// Three presets of 15 clusters.
const ENTRIES: usize = 3 * 15 * paper::ENTRIES_PER_CLUSTER;

pub fn said(calls: &Calls) -> Vec<Said> {
    let entries = Entries::new(ENTRIES);
    let orders = &entries.low;
    let zeros = [vec![33], vec![0; 31]].concat();
    let one = |transform, symbols: &[u32]| one_varblock(orders, transform, symbols);
    let examples = [
        ("15: none", one(0, &[]), "refused 15 0 0"),
        ("16: type 0, 64", one(0, &[64]), "refused 16 1 0"),
        (
            "17: type 0: 33, then 31 zeros",
            one(0, &zeros),
            "refused 17 32 0",
        ),
        ("surplus symbols", one(0, &[0, 0, 0, 9]), "read 3"),
        (
            "14: presets 0",
            with_presets(orders, 0, 0),
            "refused 14 0 0",
        ),
        ("M9: count 252 for type 4", one(4, &[252]), "refused 15 1 0"),
        ("M9: count 253 for type 4", one(4, &[253]), "refused 16 1 0"),
        (
            "M10: three presets, 2",
            with_presets(orders, 3, 2),
            "read 3",
        ),
        (
            "M10: three presets, 3",
            with_presets(orders, 3, 3),
            "refused 14 2 0",
        ),
    ];
    let rows = examples
        .into_iter()
        .map(|(example, call, paper)| row(example, answer(calls, &call, orders), paper));
    let rows = rows.chain(counts(calls, orders));
    let rows = rows.chain(m11(calls, &entries));
    rows.chain(sums(calls, orders)).collect()
}

fn answer(calls: &Calls, call: &CoefficientsCall, orders: &OrdersAndStore) -> String {
    let outcome = (calls.coefficients)(call, &orders.orders);
    say(outcome.answer, |read| format!("read {read}"))
}

/// Counts that are not used up, in the first channel of one Dct8. The last place is (7,7).
fn counts(calls: &Calls, orders: &OrdersAndStore) -> [Said; 6] {
    let call = |count, zeros| one_varblock(orders, 0, &[vec![count], vec![0; zeros]].concat());
    let zeros = |example, count, zeros, paper| {
        let answer = answer(calls, &call(count, zeros), orders);
        row(example, answer, paper)
    };
    let mut filled_last = call(2, 63);
    filled_last.symbols[63] = 2;
    let filled = answer(calls, &filled_last, orders);
    let cell = buffers(calls, &filled_last, orders).grids[1][63].to_string();
    [
        zeros("24 (02, No. 8): 1, then 63 zeros", 1, 63, "refused 24 64 0"),
        zeros("02, No. 8: 1, then 62 zeros", 1, 62, "refused 15 63 0"),
        row(
            "02, No. 8: 2, then 62 zeros and 2",
            filled,
            "refused 24 64 0",
        ),
        zeros("02, No. 8: 32, then 63 zeros", 32, 63, "refused 24 64 0"),
        zeros("02, No. 8: 33, then 63 zeros", 33, 63, "refused 17 32 0"),
        row("02, No. 8: the last place of 2, 62 zeros, 2", cell, "1"),
    ]
}

/// What the first place behind the corner, place (1,0) and so cell (0,1) of a Dct8, holds in the end.
fn sums(calls: &Calls, orders: &OrdersAndStore) -> [Said; 2] {
    let sum = |start, symbol, shift| {
        let mut call = one_varblock(orders, 0, &[1, symbol, 0, 0]);
        call.buffers.grids[1][8] = start;
        call.shift = shift;
        buffers(calls, &call, orders).grids[1][8].to_string()
    };
    [
        row("2^31 - 1 gains 1", sum(i32::MAX, 2, 0), "-2147483648"),
        row("symbol 2^32 - 2, shift 1", sum(0, u32::MAX - 1, 1), "-2"),
    ]
}

fn buffers(calls: &Calls, call: &CoefficientsCall, orders: &OrdersAndStore) -> CoefficientBuffers {
    (calls.coefficients)(call, &orders.orders).buffers
}

fn m11(calls: &Calls, entries: &Entries) -> [Said; 2] {
    let symbols = [2, 3, 0, 4, 0, 0];
    let call = |orders: &OrdersAndStore| one_varblock(orders, 0, &symbols);
    let logged = entries.logged(call, calls.coefficients);
    let grid = logged.outcome.buffers.grids[1].iter().enumerate();
    let gained: Vec<_> = grid
        .filter(|(_, &gain)| gain != 0)
        .map(|(cell, gain)| format!("({},{}) {gain}", cell % 8, cell / 8))
        .collect();
    let contexts = "[300, 618, 558, 559, 307, 307]";
    [
        row(
            "M11: channel 1 gains",
            gained.join(", "),
            "(2,0) 2, (0,1) -2",
        ),
        row("M11: contexts", format!("{:?}", logged.entries), contexts),
    ]
}

/// A coefficient call over a group that is one varblock, with default contexts.
fn one_varblock(orders: &OrdersAndStore, transform: u8, symbols: &[u32]) -> CoefficientsCall {
    let sides = expected::transform(transform.into()).expect("a transform");
    let pixels = |blocks: usize| 8 * blocks as u32;
    let column = (transform.into(), 0);
    let layout = make::layout(pixels(sides.wide), pixels(sides.high), &[column]);
    orders.coefficients(make::group(&layout), make::default_contexts(), symbols)
}

/// One Dct8 with three counts of 0, read with so many presets and a preset number.
fn with_presets(orders: &OrdersAndStore, presets: u32, preset: u8) -> CoefficientsCall {
    let mut call = one_varblock(orders, 0, &[0, 0, 0]);
    call.presets = presets;
    call.cluster_map = orders.cluster_map[..presets as usize * ENTRIES / 3].to_vec();
    call.bytes = vec![preset];
    call
}
