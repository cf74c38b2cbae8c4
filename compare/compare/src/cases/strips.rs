//! Strips without blocks (document 02, No. 2): a side of 0 beside any other, within the limits and
//! beyond, with everything that is judged all the same.

use std::sync::Arc;

use calls::{AlikeCall, CoefficientsCall, CutCall, FilteredLayout, Layout, LayoutCall};

use super::digits::Digits;
use crate::make::{self, USED_BYTE, USED_WORD};
use crate::rng::Rng;

/// Sides of which one is 0 and the other at most so large, its ends often.
pub fn any_strip(rng: &mut Rng, most: usize) -> (usize, usize) {
    let beside = match rng.below(4) {
        0 => rng.pick(&[0, 1, most - 1, most]),
        _ => rng.between(0, most),
    };
    if rng.once_in(2) {
        (0, beside)
    } else {
        (beside, 0)
    }
}

/// A layout of these sides without blocks.
pub fn empty(bw: usize, bh: usize) -> Layout {
    Layout {
        bw,
        bh,
        ..Layout::default()
    }
}

/// A 0 and one of the given sides, across or down.
fn strip<T: Clone + Default>(digits: &mut Digits, beside: &[T]) -> (T, T) {
    let (zero, beside) = (T::default(), digits.pick(beside));
    match digits.next(2) {
        0 => (zero, beside),
        _ => (beside, zero),
    }
}

/// Pixels beside a 0.
const PIXELS: [u32; 18] = [
    0,
    1,
    2,
    3,
    4,
    7,
    8,
    9,
    16,
    17,
    24,
    255,
    256,
    257,
    2047,
    2048,
    2049,
    u32::MAX,
];
const MODES: [[u32; 3]; 7] = [
    [0; 3],
    [1, 0, 0],
    [0, 2, 0],
    [0, 0, 3],
    [2, 3, 1],
    [4, 0, 0],
    [0, 0, u32::MAX],
];
/// All of them are surplus.
const COLUMNS: [&[(i32, i32)]; 4] = [&[], &[(0, 0)], &[(27, -1)], &[(26, 0), (256, i32::MAX)]];
/// What is changed of a plain call: nothing, the filter, a length, a number that has its limits.
const LAYOUT_CHANGES: [fn(&mut LayoutCall); 15] = [
    |_| (),
    |call| call.filter = Some(0.3),
    |call| call.sharpness.push(0),
    |call| call.buffers.kinds.push(USED_BYTE),
    |call| call.buffers.hf_mul.push(USED_WORD),
    |call| call.buffers.sigma.push(-1.5),
    |call| call.types.push(0),
    |call| call.muls.push(0),
    |call| call.scale = 0,
    |call| call.scale = 73_729,
    |call| call.filter = Some(65_505.0),
    |call| call.filter = Some(f32::NAN),
    |call| call.lookup[0] = f32::NAN,
    |call| call.lookup[7] = -65_505.0,
    |call| call.lookup[3] = f32::INFINITY,
];

pub const LAYOUTS: usize = 2 * PIXELS.len() * MODES.len() * COLUMNS.len() * LAYOUT_CHANGES.len();

pub fn layout(number: usize) -> LayoutCall {
    let mut digits = Digits::of(number);
    let change = digits.pick(&LAYOUT_CHANGES);
    let columns = digits.pick(&COLUMNS);
    let modes = digits.pick(&MODES);
    let (width, height) = strip(&mut digits, &PIXELS);
    let mut call = make::layout(width, height, columns);
    call.modes = modes;
    change(&mut call);
    call
}

/// Blocks beside a 0.
const BLOCKS: [usize; 12] = [0, 1, 2, 3, 31, 32, 33, 64, 255, 256, 257, usize::MAX];
const INDICES: [usize; 10] = [0, 1, 2, 3, 7, 8, 63, 64, 65, usize::MAX];
/// Lists are as long as they should be, or longer by one.
const LENGTHS: usize = 2;

pub const CUTS: usize = 2 * BLOCKS.len() * INDICES.len() * LENGTHS.pow(4);

pub fn cut(number: usize) -> CutCall {
    let mut digits = Digits::of(number);
    let group = digits.pick(&INDICES);
    let (bw, bh) = strip(&mut digits, &BLOCKS);
    CutCall {
        layout: Layout {
            bw,
            bh,
            kinds: vec![2; digits.next(LENGTHS)],
            hf_mul: vec![1; digits.next(LENGTHS)],
        },
        group,
        kinds: vec![USED_BYTE; digits.next(LENGTHS)],
        hf_mul: vec![USED_WORD; digits.next(LENGTHS)],
    }
}

/// Sides of the two layouts, most of them without blocks.
const LIKE: [(usize, usize); 13] = [
    (0, 0),
    (0, 1),
    (1, 0),
    (0, 3),
    (5, 0),
    (0, 256),
    (256, 0),
    (0, 257),
    (257, 0),
    (0, usize::MAX),
    (usize::MAX, 0),
    (1, 1),
    (2, 1),
];
const SIGMA: [&[f32]; 3] = [&[], &[0.0], &[f32::NAN]];
const EACH_LIKE: usize = LIKE.len() * LENGTHS.pow(2) * SIGMA.len();

pub const PAIRS: usize = EACH_LIKE.pow(2);

pub fn alike(number: usize) -> AlikeCall {
    let mut digits = Digits::of(number);
    let [left, right] = [(); 2].map(|()| {
        let (bw, bh) = digits.pick(&LIKE);
        FilteredLayout {
            layout: Layout {
                bw,
                bh,
                kinds: vec![2; digits.next(LENGTHS)],
                hf_mul: vec![1; digits.next(LENGTHS)],
            },
            sigma: digits.pick(&SIGMA).to_vec(),
        }
    });
    AlikeCall { left, right }
}

/// Blocks of a group beside a 0.
const GROUP_BLOCKS: [usize; 8] = [0, 1, 2, 5, 31, 32, 33, usize::MAX];
/// Presets, and the bytes of the preset's number.
const PRESETS: [(u32, &[u8]); 12] = [
    (0, &[]),
    (0, &[1]),
    (1, &[]),
    (1, &[0xff]),
    (2, &[]),
    (2, &[0]),
    (2, &[1]),
    (3, &[2]),
    (3, &[3]),
    (256, &[]),
    (256, &[0xff]),
    (257, &[0]),
];
const GROUP_CHANGES: [fn(&mut CoefficientsCall); 20] = [
    |_| (),
    |call| call.symbols = vec![0],
    |call| call.symbols = vec![64, 7],
    |call| call.lf = Some(Default::default()),
    |call| call.lf = Some([vec![7], vec![], vec![]]),
    |call| call.lf = Some([vec![], vec![], vec![7]]),
    |call| call.group.kinds.push(2),
    |call| call.group.hf_mul.push(1),
    |call| call.buffers.grids[0].push(0),
    |call| call.buffers.grids[1].push(0),
    |call| call.buffers.grids[2].push(0),
    |call| call.buffers.log.push(USED_BYTE),
    |call| call.shift = 3,
    |call| call.shift = 4,
    |call| call.contexts.count = 0,
    |call| call.contexts.map[38] = 15,
    |call| call.cluster_map.push(0),
    |call| shorten(&mut call.cluster_map),
    |call| shorten(Arc::make_mut(&mut call.store)),
    |call| Arc::make_mut(&mut call.store)[0] = 8,
];

fn shorten<T>(list: &mut Vec<T>) {
    list.pop();
}

pub const GROUPS: usize = 2 * GROUP_BLOCKS.len() * PRESETS.len() * GROUP_CHANGES.len();

/// A coefficient call over a group without blocks: what is lent to it, and what is changed then.
pub struct GroupStrip {
    pub group: Layout,
    pub presets: u32,
    pub bytes: &'static [u8],
    pub change: fn(&mut CoefficientsCall),
}

pub fn group(number: usize) -> GroupStrip {
    let mut digits = Digits::of(number);
    let change = digits.pick(&GROUP_CHANGES);
    let (presets, bytes) = digits.pick(&PRESETS);
    let (bw, bh) = strip(&mut digits, &GROUP_BLOCKS);
    GroupStrip {
        group: empty(bw, bh),
        presets,
        bytes,
        change,
    }
}
