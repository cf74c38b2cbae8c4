use calls::{AlikeCall, FilteredLayout, Layout, Outcome};
use paper::TRANSFORM_COUNT;

use super::cut::{misfit, plain_layouts, short_layout, short_layouts, whole_layout};
use super::digits::{lists_count, Digits};
use super::placing::{damage, fill, single};
use super::strengths::{any_finite, any_not_finite, EACH};
use super::strips::{self, any_strip, empty};
use super::{plainer, variants, Case};
use crate::rng::Rng;

pub struct AlikeCase;

/// Short layouts are held against those that are so many places further on, with the same sigma.
const STEPS: [usize; 5] = [0, 1, 6, 78, 1014];

/// Single blocks, by width and kind, with short lists of any numbers: a Dct8, a Hornuss, a free cell,
/// and one that is said to be too wide.
const BLOCKS: [(usize, u8); 4] = [(1, 2), (1, 3), (1, 0), (257, 2)];
const SHORT_LENGTH: usize = 2;

/// Kinds of transforms of one block.
const ONE_BLOCK: [u8; 10] = [2, 3, 4, 5, 14, 15, 16, 17, 18, 19];

impl AlikeCase {
    /// So many of the short inputs, the first of them, are mostly about layouts without blocks.
    pub const STRIPS: usize = strips::PAIRS;
}

impl Case for AlikeCase {
    const NAME: &'static str = "alike";
    type Input = AlikeCall;
    type Value = bool;
    type Buffers = ();

    fn expected(&self, input: &AlikeCall) -> Outcome<bool, ()> {
        Outcome {
            answer: paper::alike(input),
            buffers: (),
        }
    }

    fn without_blocks(&self, input: &AlikeCall) -> Option<bool> {
        let lent = [&input.left, &input.right];
        Some(lent.iter().any(|lent| lent.layout.blocks() == 0))
    }

    fn short_count(&self) -> usize {
        let blocks = BLOCKS.len() * lists_count(EACH.len(), SHORT_LENGTH);
        Self::STRIPS + short_layouts() * STEPS.len() + blocks.pow(2)
    }

    fn short(&self, number: usize) -> AlikeCall {
        let Some(number) = number.checked_sub(Self::STRIPS) else {
            return strips::alike(number);
        };
        let pairs = short_layouts() * STEPS.len();
        match number.checked_sub(pairs) {
            None => short_pair(number),
            Some(number) => short_blocks(number),
        }
    }

    fn random(&self, rng: &mut Rng) -> AlikeCall {
        let layout = whole_layout(rng);
        let left = filtered(rng, layout);
        let right = left.clone();
        let mut call = AlikeCall { left, right };
        differ(rng, &mut call);
        if rng.once_in(2) {
            for _ in 0..rng.between(1, 3) {
                let of_left = rng.once_in(2);
                fault(
                    rng,
                    if of_left {
                        &mut call.left
                    } else {
                        &mut call.right
                    },
                );
            }
        }
        if rng.once_in(2) {
            std::mem::swap(&mut call.left, &mut call.right);
        }
        call
    }

    fn smaller(&self, input: &AlikeCall) -> Vec<AlikeCall> {
        let AlikeCall { left, right } = input;
        let mut found = variants(input, plain_layouts(&left.layout), |i, layout| {
            i.left.layout = layout
        });
        found.extend(variants(
            input,
            plain_layouts(&right.layout),
            |i, layout| i.right.layout = layout,
        ));
        found.extend(variants(input, plainer(&left.sigma, 0.0), |i, sigma| {
            i.left.sigma = sigma
        }));
        found.extend(variants(input, plainer(&right.sigma, 0.0), |i, sigma| {
            i.right.sigma = sigma
        }));
        found
    }
}

fn short_pair(number: usize) -> AlikeCall {
    let left = number / STEPS.len();
    let right = (left + STEPS[number % STEPS.len()]) % short_layouts();
    let [left, right] = [left, right].map(|number| {
        let layout = short_layout(number);
        let sigma = vec![0.5; layout.blocks()];
        FilteredLayout { layout, sigma }
    });
    AlikeCall { left, right }
}

fn short_blocks(number: usize) -> AlikeCall {
    let mut digits = Digits::of(number);
    let [left, right] = [(); 2].map(|()| {
        let (bw, kind) = digits.pick(&BLOCKS);
        let sigma = digits.list(&EACH, SHORT_LENGTH);
        FilteredLayout {
            layout: Layout {
                bw,
                bh: 1,
                kinds: vec![kind],
                hf_mul: vec![i32::from(kind >= 2)],
            },
            sigma: sigma.into_iter().map(f32::from_bits).collect(),
        }
    });
    AlikeCall { left, right }
}

fn filtered(rng: &mut Rng, layout: Layout) -> FilteredLayout {
    let sigma = (0..layout.blocks()).map(|_| any_finite(rng)).collect();
    FilteredLayout { layout, sigma }
}

/// Another right layout, or the same, changed in one place or not at all.
fn differ(rng: &mut Rng, call: &mut AlikeCall) {
    let AlikeCall { left, right } = call;
    let layout = &mut right.layout;
    if layout.blocks() == 0 {
        return differ_without_blocks(rng, right);
    }
    let cell = rng.below(layout.blocks());
    match rng.below(12) {
        0 => {
            let other = whole_layout(rng);
            *right = filtered(rng, other);
        }
        1 => *layout = fill(rng, layout.bw, layout.bh, None).layout,
        2 => std::mem::swap(&mut layout.bw, &mut layout.bh),
        3 | 4 => exchange(rng, &mut layout.kinds),
        5 => change_mul(rng, &mut layout.hf_mul),
        6 => {
            left.sigma[cell] = if rng.once_in(2) { 0.0 } else { -0.0 };
            right.sigma[cell] = -left.sigma[cell];
        }
        7 => {
            let bits = right.sigma[cell].to_bits() ^ 1 << rng.below(32);
            right.sigma[cell] = f32::from_bits(bits);
        }
        _ => {}
    }
}

/// Another right layout, mostly again without blocks, or the same.
fn differ_without_blocks(rng: &mut Rng, right: &mut FilteredLayout) {
    let layout = match rng.below(8) {
        0 | 1 => whole_layout(rng),
        2 => single(rng.below(TRANSFORM_COUNT) as u8),
        3 => right.layout.clone(),
        _ => {
            let (bw, bh) = any_strip(rng, 256);
            empty(bw, bh)
        }
    };
    *right = filtered(rng, layout);
}

/// Another transform of one block in place of one, which leaves the rectangles as they are.
fn exchange(rng: &mut Rng, kinds: &mut [u8]) {
    let mut one_block: Vec<&mut u8> = kinds
        .iter_mut()
        .filter(|kind| ONE_BLOCK.contains(kind))
        .collect();
    if !one_block.is_empty() {
        let chosen = rng.below(one_block.len());
        *one_block[chosen] = rng.pick(&ONE_BLOCK);
    }
}

fn change_mul(rng: &mut Rng, hf_mul: &mut [i32]) {
    let mut corners: Vec<&mut i32> = hf_mul.iter_mut().filter(|mul| **mul > 0).collect();
    let chosen = rng.below(corners.len());
    *corners[chosen] ^= 1 << rng.below(31);
}

/// Something that is refused, most often.
fn fault(rng: &mut Rng, lent: &mut FilteredLayout) {
    match rng.below(8) {
        0 | 1 => misfit(rng, &mut lent.layout),
        2 => lent.sigma.resize(rng.misfit(lent.sigma.len()), 0.0),
        3 => lent.sigma.push(any_not_finite(rng)),
        4 | 5 => {
            let place = rng.below(lent.sigma.len().max(1));
            if let Some(sigma) = lent.sigma.get_mut(place) {
                *sigma = any_not_finite(rng);
            }
        }
        _ => damage(rng, &mut lent.layout),
    }
}
