use calls::list_start;

use super::{row, say, Calls, Said};
use crate::make;

pub fn said(calls: &Calls) -> Vec<Said> {
    let begins = |used, symbols: &[u32], order, places| begins(calls, used, symbols, order, places);
    let square = "(0,0) (1,0) (0,1) (0,2) (1,1) (2,0)";
    let flat = "(0,0) (1,0) (0,1) (2,0) (3,0) (1,1)";
    let permuted = "(0,0) (0,1) (1,0) (0,2)";
    vec![
        row("M1: natural 8 x 8", begins(0, &[], 0, 6), square),
        row("M2: natural 16 x 8", begins(0, &[], 4, 6), flat),
        row(
            "M3: order 0, length 1, digit 1",
            begins(1, &[1, 1, 0, 0], 0, 4),
            permuted,
        ),
        row(
            "13: order 0, length 64",
            begins(1, &[64], 0, 1),
            "refused 13 1 0",
        ),
        row("15: order 0, none", begins(1, &[], 0, 1), "refused 15 0 0"),
    ]
}

/// The first places of an order's list for channel 0.
fn begins(calls: &Calls, used: u32, symbols: &[u32], order: usize, places: usize) -> String {
    let outcome = (calls.orders)(&make::orders(used, symbols));
    let list = &outcome.buffers[list_start(order, 0)..][..2 * places];
    let shown: Vec<_> = list
        .chunks(2)
        .map(|place| format!("({},{})", place[0], place[1]))
        .collect();
    say(outcome.answer, |_| shown.join(" "))
}
