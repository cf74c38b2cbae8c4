use std::hint::black_box;

use calls::{
    list_length, list_start, OrdersCall, Refusal, Store, ORDER_COUNT, ORDER_SIZES, STORE_LENGTH,
};
use compare::rng::Rng;
use compare::{expected, make};
use jxl_vardct::oracle;

use crate::measure::{plain, Sides};
use crate::rows::Bench;

/// Every order.
const ALL: u32 = 0x1fff;
/// The square orders from 8 x 8 to 256 x 256, to show how the time grows with the size.
const SQUARES: [usize; 5] = [0, 3, 7, 9, 11];
const LARGEST: usize = 11;

pub fn benches() -> Vec<Bench> {
    let bench = |name, call: fn() -> OrdersCall| Bench::new(name, move || sides(call()));
    let mut benches = vec![
        bench("orders, default", || make::orders(0, &[])),
        bench("orders, all used, length 0", || make::orders(ALL, &[0; 39])),
    ];
    for order in SQUARES {
        benches.push(permuted(order, "random digits", random));
    }
    benches.push(permuted(LARGEST, "largest digits", largest));
    benches.push(Bench::new("stored places", places));
    benches.push(written("store filled with one number", |_, to| to.fill(0)));
    benches.push(written("store copied", |from, to| to.copy_from_slice(from)));
    benches.push(written("store, each list copied three times", copy_lists));
    benches
}

/// The 1.5 MB of a store written by the library's own fill or copy, from a store of natural orders:
/// what an order call's time can be held against. No call of Netbuff's.
fn written(name: &str, write: fn(&[u16], &mut [u16])) -> Bench {
    Bench::new(name, move || {
        let (from, mut to) = (natural(), make::used_store());
        Sides {
            ours: None,
            rust: Some(plain(move || {
                write(&from, &mut to);
                Ok::<_, Refusal>(black_box(&mut to).len())
            })),
            units: (STORE_LENGTH / 2, "place"),
        }
    })
}

/// Fills a store from the 13 lists of channel 0, each copied three times.
fn copy_lists(from: &[u16], to: &mut [u16]) {
    for order in 0..ORDER_COUNT {
        let list = &from[list_start(order, 0)..][..list_length(order)];
        for channel in 0..3 {
            to[list_start(order, channel)..][..list.len()].copy_from_slice(list);
        }
    }
}

/// The store of natural orders.
fn natural() -> Store {
    expected::orders(&make::orders(0, &[])).buffers
}

/// The check of stored places that every coefficient call makes. The Rust has no such check.
fn places() -> Sides {
    let store = natural();
    Sides {
        ours: Some(plain(move || ours::places_fit(&store).answer)),
        rust: None,
        units: (STORE_LENGTH / 2, "place"),
    }
}

/// One order used, its three lists with all their digits.
fn permuted(order: usize, digits: &str, symbols: fn(usize) -> Vec<u32>) -> Bench {
    let (width, height) = ORDER_SIZES[order];
    Bench::new(format!("orders, {width} x {height}, {digits}"), move || {
        Sides {
            units: (3 * free(order), "digit"),
            ..sides(make::orders(1 << order, &symbols(order)))
        }
    })
}

/// Random digits of a square order, drawn from one generator behind those of the smaller ones.
fn random(order: usize) -> Vec<u32> {
    let mut rng = Rng::new(3);
    let drawn = SQUARES.map(|square| (square, lists(square, |most| rng.below(most + 1))));
    let mut drawn = drawn.into_iter();
    let found = drawn.find(|(square, _)| *square == order);
    found.expect("a square order").1
}

/// The largest digits that an order may have.
fn largest(order: usize) -> Vec<u32> {
    lists(order, |most| most)
}

/// The three lists of an order, each digit given by the largest that it may be.
fn lists(order: usize, mut digit: impl FnMut(usize) -> usize) -> Vec<u32> {
    let free = free(order);
    let mut symbols = Vec::new();
    for _ in 0..3 {
        symbols.push(free as u32);
        symbols.extend((0..free).map(|taken| digit(free - taken - 1) as u32));
    }
    symbols
}

/// How many numbers of an order's list are not fixed.
fn free(order: usize) -> usize {
    let (width, height) = ORDER_SIZES[order];
    width * height - width * height / 64
}

fn sides(call: OrdersCall) -> Sides {
    let other = call.clone();
    let mut our_store = call.store.clone();
    let mut rust_store = call.store.clone();
    Sides {
        ours: Some(plain(move || ours::orders_into(&call, &mut our_store))),
        rust: Some(plain(move || {
            let orders = oracle::orders(&other.bytes, &other.symbols, &[]);
            orders.map(|orders| orders.write(&mut rust_store))
        })),
        units: (STORE_LENGTH / 2, "place"),
    }
}

#[cfg(test)]
mod tests {
    use super::*;

    #[test]
    fn copied_lists_are_the_store_of_natural_orders() {
        let from = natural();
        let mut to = make::used_store();
        copy_lists(&from, &mut to);
        assert!(to == from);
    }

    #[test]
    fn random_digits_are_those_of_one_generator() {
        let mut rng = Rng::new(3);
        for order in SQUARES {
            let drawn = lists(order, |most| rng.below(most + 1));
            assert!(random(order) == drawn, "order {order}");
        }
    }
}
