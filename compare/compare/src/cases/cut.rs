use calls::{CutCall, GroupBuffers, Layout, Outcome};
use paper::TRANSFORM_COUNT;

use super::digits::Digits;
use super::placing::{damage, fill};
use super::strips::{self, any_strip, empty};
use super::{less, plainer, shorter, variants, Case};
use crate::make::{USED_BYTE, USED_WORD};
use crate::rng::Rng;

pub struct CutCase;

/// Grids of at most four cells, over all kinds and one beyond; hf_mul as the kinds ask for.
const SHORT_GRIDS: [(usize, usize); 6] = [(1, 1), (2, 1), (1, 2), (3, 1), (1, 3), (2, 2)];
const SHORT_CELLS: usize = 4;
const SHORT_KINDS: [u8; 13] = [0, 1, 2, 3, 6, 7, 8, 9, 10, 14, 28, 29, 255];

impl CutCase {
    /// So many of the short inputs, the first of them, are layouts without blocks.
    pub const STRIPS: usize = strips::CUTS;
}

impl Case for CutCase {
    const NAME: &'static str = "cut";
    type Input = CutCall;
    type Value = (usize, usize);
    type Buffers = GroupBuffers;

    fn expected(&self, input: &CutCall) -> Outcome<(usize, usize), GroupBuffers> {
        paper::cut(input)
    }

    fn without_blocks(&self, input: &CutCall) -> Option<bool> {
        Some(input.layout.blocks() == 0)
    }

    fn short_count(&self) -> usize {
        Self::STRIPS + short_layouts()
    }

    fn short(&self, number: usize) -> CutCall {
        match number.checked_sub(Self::STRIPS) {
            None => strips::cut(number),
            Some(number) => call(short_layout(number), 0),
        }
    }

    fn random(&self, rng: &mut Rng) -> CutCall {
        let layout = random_layout(rng);
        let groups = layout.bw.div_ceil(32) * layout.bh.div_ceil(32);
        let group = match groups {
            0 => rng.pick(&[0, 0, 1, 7, 8, 63, 64, usize::MAX]),
            _ => rng.below(groups),
        };
        let mut call = call(layout, group);
        match rng.below(24) {
            0 => call.group = rng.pick(&[groups, usize::MAX, 64, groups + 1]),
            1 => call.kinds.resize(rng.misfit(call.kinds.len()), 0),
            2 => call.hf_mul.resize(rng.misfit(call.hf_mul.len()), 0),
            3 => misfit(rng, &mut call.layout),
            _ => {}
        }
        call
    }

    fn smaller(&self, input: &CutCall) -> Vec<CutCall> {
        let mut found = variants(input, plain_layouts(&input.layout), |i, layout| {
            i.layout = layout
        });
        let indices = less(&input.group, [0, 1, input.group / 2]);
        if input.layout.blocks() == 0 {
            found.extend(variants(input, indices, |i, group| i.group = group));
        }
        found
    }
}

/// Copies of a layout with a plainer cell, or, where it has no blocks, with a smaller side or list.
pub fn plain_layouts(layout: &Layout) -> Vec<Layout> {
    if layout.blocks() == 0 {
        return smaller_strips(layout);
    }
    let mut found = variants(layout, plainer(&layout.kinds, 2), |l, kinds| {
        l.kinds = kinds
    });
    found.extend(variants(layout, plainer(&layout.hf_mul, 1), |l, hf_mul| {
        l.hf_mul = hf_mul
    }));
    found
}

/// Copies of a layout without blocks with a smaller side, or with fewer of the cells that are too many.
pub fn smaller_strips(layout: &Layout) -> Vec<Layout> {
    let sides = |side: usize| less(&side, [0, 1, side / 2, side.saturating_sub(1)]);
    let mut found = variants(layout, sides(layout.bw), |l, bw| l.bw = bw);
    found.extend(variants(layout, sides(layout.bh), |l, bh| l.bh = bh));
    found.extend(variants(layout, shorter(&layout.kinds), |l, kinds| {
        l.kinds = kinds
    }));
    found.extend(variants(layout, shorter(&layout.hf_mul), |l, hf_mul| {
        l.hf_mul = hf_mul
    }));
    found
}

fn call(layout: Layout, group: usize) -> CutCall {
    let across = layout.bw.div_ceil(32).max(1);
    let (x, y) = (group % across * 32, group / across * 32);
    let side = |layout: usize, start| layout.saturating_sub(start).min(32);
    let cells = side(layout.bw, x) * side(layout.bh, y);
    CutCall {
        layout,
        group,
        kinds: vec![USED_BYTE; cells],
        hf_mul: vec![USED_WORD; cells],
    }
}

pub fn short_layouts() -> usize {
    SHORT_KINDS.len().pow(SHORT_CELLS as u32) * SHORT_GRIDS.len()
}

pub fn short_layout(number: usize) -> Layout {
    let mut digits = Digits::of(number);
    let (bw, bh) = digits.pick(&SHORT_GRIDS);
    let kinds: Vec<u8> = (0..bw * bh).map(|_| digits.pick(&SHORT_KINDS)).collect();
    let hf_mul = kinds
        .iter()
        .map(|&kind| i32::from((2..=28).contains(&kind)));
    Layout {
        bw,
        bh,
        hf_mul: hf_mul.collect(),
        kinds,
    }
}

/// A layout, damaged half of the time.
fn random_layout(rng: &mut Rng) -> Layout {
    let mut layout = whole_layout(rng);
    if rng.once_in(2) {
        damage(rng, &mut layout);
    }
    layout
}

/// A layout, seldom large; once in eight times it has no blocks.
pub fn whole_layout(rng: &mut Rng) -> Layout {
    if rng.once_in(8) {
        let (bw, bh) = any_strip(rng, 256);
        return empty(bw, bh);
    }
    let most = rng.pick(&[4, 8, 8, 8, 40, 40, 70, 256]);
    let (bw, bh) = (rng.between(1, most), rng.between(1, most.min(70)));
    let favoured = rng.once_in(3).then(|| rng.below(TRANSFORM_COUNT) as u8);
    fill(rng, bw, bh, favoured).layout
}

/// Sides outside the limits, or lengths that do not fit.
pub fn misfit(rng: &mut Rng, layout: &mut Layout) {
    match rng.below(4) {
        0 => layout.bw = rng.pick(&[0, 257, usize::MAX]),
        1 => layout.bh = rng.pick(&[0, 257, usize::MAX]),
        2 => layout.kinds.resize(rng.misfit(layout.kinds.len()), 1),
        _ => layout.hf_mul.resize(rng.misfit(layout.hf_mul.len()), 0),
    }
}
