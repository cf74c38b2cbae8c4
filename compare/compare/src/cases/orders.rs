use calls::{OrdersCall, Outcome, Store, ORDER_COUNT, ORDER_SIZES};

use super::digits::Digits;
use super::{plainer, shorter, variants, Case};
use crate::bits::Bits;
use crate::rng::Rng;
use crate::{expected, make};

pub struct OrdersCase;

/// Short lists of digits for order 0, in each of its three lists.
const SHORT_DIGITS: [u32; 7] = [0, 1, 2, 61, 62, 63, 64];
const SHORT_SYMBOLS: usize = 4;
const SHORT_SELECTED: usize = 4 * 5;

impl Case for OrdersCase {
    const NAME: &'static str = "orders";
    type Input = OrdersCall;
    type Value = usize;
    type Buffers = Store;

    fn expected(&self, input: &OrdersCall) -> Outcome<usize, Store> {
        expected::orders(input)
    }

    fn short_count(&self) -> usize {
        SHORT_SELECTED + super::digits::lists_count(SHORT_DIGITS.len(), SHORT_SYMBOLS)
    }

    fn short(&self, number: usize) -> OrdersCall {
        if let Some(number) = number.checked_sub(SHORT_SELECTED) {
            return make::orders(1, &Digits::of(number).list(&SHORT_DIGITS, SHORT_SYMBOLS));
        }
        let (selector, filled) = (number % 4, number / 4);
        OrdersCall {
            bytes: Bits::default().put_u32(selector as u32, 0x1fff, 13).bytes()[..filled.min(2)]
                .to_vec(),
            symbols: vec![0; [0, 1, 39, 100, 12][filled]],
            store: make::used_store(),
        }
    }

    fn random(&self, rng: &mut Rng) -> OrdersCall {
        let used = match rng.below(4) {
            0 => rng.next_u32() & 0x1fff,
            1 => rng.pick(&[0x1fff, 0x5f, 0x13, 0]),
            _ => 1 << rng.below(ORDER_COUNT),
        };
        let mut call = make::orders(used, &symbols(rng, used));
        match (rng.below(8), call.symbols.len()) {
            (0, 1..) => call.symbols.truncate(rng.below(call.symbols.len())),
            (1, 1..) => {
                let place = rng.below(call.symbols.len());
                call.symbols[place] = rng.pick(&[63, 64, 65, 65_536, u32::MAX]);
            }
            (2, _) => call.symbols.push(rng.next_u32()),
            (3, _) if rng.once_in(4) => call.store.resize(rng.misfit(call.store.len()), 7),
            (4, _) if rng.once_in(4) => call.bytes.truncate(rng.below(2)),
            _ => {}
        }
        call
    }

    fn smaller(&self, input: &OrdersCall) -> Vec<OrdersCall> {
        let mut found = variants(input, shorter(&input.symbols), |i, list| i.symbols = list);
        found.extend(variants(input, plainer(&input.symbols, 0), |i, list| {
            i.symbols = list
        }));
        found
    }
}

/// Lengths and digits for the used orders, all inside their limits.
pub fn symbols(rng: &mut Rng, used: u32) -> Vec<u32> {
    let mut symbols = Vec::new();
    for (order, (width, height)) in ORDER_SIZES.into_iter().enumerate() {
        if used >> order & 1 == 0 {
            continue;
        }
        for _ in 0..3 {
            list(rng, width * height, &mut symbols);
        }
    }
    symbols
}

fn list(rng: &mut Rng, size: usize, symbols: &mut Vec<u32>) {
    let free = size - size / 64;
    let length = match rng.below(8) {
        0 => 0,
        1 => free.min(500),
        // The Rust's time grows with the square of a long list.
        2 if free < 5000 || rng.once_in(200) => free,
        _ => rng.below(free.min(200) + 1),
    };
    let style = rng.below(4);
    symbols.push(length as u32);
    symbols.extend((0..length).map(|taken| {
        let most = free - taken - 1;
        let digit = match style {
            0 => most,
            1 => 0,
            2 => rng.below(most.min(3) + 1),
            _ => rng.below(most + 1),
        };
        digit as u32
    }));
}
