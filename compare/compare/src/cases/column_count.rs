use calls::{ColumnCount, ColumnCountCall, Outcome};

use super::digits::Digits;
use super::{less, shorter, simpler, variants, Case};
use crate::expected;
use crate::rng::Rng;

pub struct ColumnCountCase;

/// Sides around those at which the number of bits changes, and around the limits.
const SIDES: [u32; 26] = [
    0, 1, 2, 3, 8, 9, 16, 17, 24, 25, 32, 33, 64, 65, 128, 129, 255, 256, 257, 512, 1024, 1025,
    2040, 2041, 2047, 2048,
];
const OUTSIDE: [u32; 3] = [2049, 4096, u32::MAX];
const MODES: [[u32; 3]; 7] = [
    [0; 3],
    [0, 1, 0],
    [2, 0, 0],
    [0, 0, 3],
    [2, 3, 1],
    [4, 0, 0],
    [0, u32::MAX, 2],
];
const PATTERNS: [u8; 4] = [0x00, 0xff, 0x55, 0x8d];
const BYTES_MOST: usize = 4;

impl Case for ColumnCountCase {
    const NAME: &'static str = "column_count";
    type Input = ColumnCountCall;
    type Value = ColumnCount;
    type Buffers = ();

    fn expected(&self, input: &ColumnCountCall) -> Outcome<ColumnCount, ()> {
        Outcome {
            answer: expected::column_count(input),
            buffers: (),
        }
    }

    fn without_blocks(&self, input: &ColumnCountCall) -> Option<bool> {
        Some(input.width == 0 || input.height == 0)
    }

    fn short_count(&self) -> usize {
        let sides = SIDES.len() + OUTSIDE.len();
        sides * sides * MODES.len() * PATTERNS.len() * BYTES_MOST
    }

    fn short(&self, number: usize) -> ColumnCountCall {
        let mut digits = Digits::of(number);
        let sides = [&SIDES[..], &OUTSIDE].concat();
        ColumnCountCall {
            bytes: vec![digits.pick(&PATTERNS); digits.next(BYTES_MOST)],
            modes: digits.pick(&MODES),
            width: digits.pick(&sides),
            height: digits.pick(&sides),
        }
    }

    fn random(&self, rng: &mut Rng) -> ColumnCountCall {
        let length = rng.below(BYTES_MOST);
        ColumnCountCall {
            bytes: rng.bytes(length),
            width: any_side(rng),
            height: any_side(rng),
            modes: rng.pick(&MODES),
        }
    }

    fn smaller(&self, input: &ColumnCountCall) -> Vec<ColumnCountCall> {
        let smaller = |side: &u32| less(side, [0, 1, side / 2, side.saturating_sub(1)]);
        let mut found = variants(input, shorter(&input.bytes), |i, bytes| i.bytes = bytes);
        found.extend(variants(input, simpler(&input.modes, [[0; 3]]), |i, m| {
            i.modes = m
        }));
        found.extend(variants(input, smaller(&input.width), |i, side| {
            i.width = side
        }));
        found.extend(variants(input, smaller(&input.height), |i, side| {
            i.height = side
        }));
        found
    }
}

/// Once in eight times 0.
fn any_side(rng: &mut Rng) -> u32 {
    match rng.below(32) {
        0..=3 => 0,
        4 => rng.pick(&[1, 2047, 2048, 2049, u32::MAX]),
        _ => rng.between(1, 2048) as u32,
    }
}
