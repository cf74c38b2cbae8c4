use calls::{LayoutBuffers, LayoutCall, Outcome};
use paper::TRANSFORM_COUNT;

use super::digits::{lists_count, Digits};
use super::placing::fill;
use super::strips::{self, any_strip};
use super::{plainer, shorter, simpler, variants, Case};
use crate::rng::Rng;
use crate::{expected, make};

pub struct LayoutCase;

/// All types, their neighbours, and some that are not 0 to 255.
const SHORT_TYPES: [i32; 34] = [
    0, 1, 2, 3, 4, 5, 6, 7, 8, 9, 10, 11, 12, 13, 14, 15, 16, 17, 18, 19, 20, 21, 22, 23, 24, 25,
    26, 27, 28, 255, 256, 282, -1, -256,
];
const SHORT_MULS: [i32; 4] = [0, -1, i32::MAX, 4];
const SHORT_MODES: [[u32; 3]; 3] = [[0; 3], [0, 1, 0], [2, 0, 0]];
const SHORT_SIDES: [u32; 3] = [8, 16, 24];
const SHORT_LISTS: usize = 3;
const SIDE_MOST: u32 = 2048;
/// What is tried of the filter on each short list: off, on, and on with a faulty last sharpness.
const SHORT_FILTERS: usize = 3;

const FLOATS: [u32; 14] = [
    0x0000_0000, // 0
    0x8000_0000, // -0
    0x0000_0001, // the smallest subnormal
    0x807f_ffff, // the largest subnormal, negative
    0x0080_0000, // the smallest normal number
    0x3f80_0000, // 1
    0x3eaa_aaab, // 1/3
    0x477f_e000, // 65,504
    0xc77f_e000, // -65,504
    0x477f_e001, // the next above 65,504
    0xc77f_e001,
    0x7f80_0000, // infinity
    0xff80_0000,
    0x7fc0_0000, // NaN
];
const FLOATS_INSIDE: usize = 9;

impl LayoutCase {
    /// So many of the short inputs, the first of them, are strips without blocks.
    pub const STRIPS: usize = strips::LAYOUTS;
}

impl Case for LayoutCase {
    const NAME: &'static str = "layout";
    type Input = LayoutCall;
    type Value = usize;
    type Buffers = LayoutBuffers;

    fn expected(&self, input: &LayoutCall) -> Outcome<usize, LayoutBuffers> {
        expected::layout(input)
    }

    fn by_model(&self, input: &LayoutCall, _: &Outcome<usize, LayoutBuffers>) -> Option<bool> {
        Some(expected::has_types_above_a_byte(input))
    }

    fn without_blocks(&self, input: &LayoutCall) -> Option<bool> {
        Some(input.width == 0 || input.height == 0)
    }

    fn short_count(&self) -> usize {
        let lists = lists_count(SHORT_TYPES.len(), SHORT_LISTS);
        let sides = SHORT_SIDES.len().pow(2);
        Self::STRIPS + lists * sides * SHORT_MODES.len() * SHORT_FILTERS * SHORT_MULS.len()
    }

    fn short(&self, number: usize) -> LayoutCall {
        let Some(number) = number.checked_sub(Self::STRIPS) else {
            return strips::layout(number);
        };
        let mut digits = Digits::of(number);
        let filter = digits.next(SHORT_FILTERS);
        let last_mul = digits.pick(&SHORT_MULS);
        let modes = digits.pick(&SHORT_MODES);
        let (width, height) = (digits.pick(&SHORT_SIDES), digits.pick(&SHORT_SIDES));
        let types = digits.list(&SHORT_TYPES, SHORT_LISTS);
        let mut columns: Vec<_> = types.into_iter().map(|number| (number, 1)).collect();
        if let Some(last) = columns.last_mut() {
            last.1 = last_mul;
        }
        let mut call = make::layout(width, height, &columns);
        call.modes = modes;
        fit_lengths(&mut call);
        if filter > 0 {
            call.filter = Some(0.3);
        }
        if let (2, Some(last)) = (filter, call.sharpness.last_mut()) {
            *last = 8;
        }
        call
    }

    fn random(&self, rng: &mut Rng) -> LayoutCall {
        let mut call = filled(rng);
        if !rng.once_in(4) {
            for _ in 0..rng.between(1, 3) {
                damage(rng, &mut call);
            }
        }
        call
    }

    fn smaller(&self, input: &LayoutCall) -> Vec<LayoutCall> {
        let mut found = alone(input);
        let sides = simpler(&(input.width, input.height), smaller_sides(input));
        found.extend(variants(input, sides, |call, (width, height)| {
            (call.width, call.height) = (width, height);
            if width.max(height) <= SIDE_MOST {
                fit_lengths(call);
            }
        }));
        let types = input.types.iter().copied();
        let columns: Vec<_> = types.zip(input.muls.iter().copied()).collect();
        let set_columns = |call: &mut LayoutCall, columns: Vec<(i32, i32)>| {
            (call.types, call.muls) = columns.into_iter().unzip();
        };
        found.extend(variants(input, shorter(&columns), set_columns));
        found.extend(variants(input, plainer(&columns, (0, 0)), set_columns));
        found.extend(variants(input, simpler(&input.modes, [[0; 3]]), |i, m| {
            i.modes = m
        }));
        found.extend(variants(input, simpler(&input.filter, [None]), |i, f| {
            i.filter = f
        }));
        found.extend(variants(input, plainer(&input.sharpness, 0), |i, s| {
            i.sharpness = s
        }));
        found.extend(variants(
            input,
            simpler(&input.lookup, [[1.0; 8]]),
            |i, l| i.lookup = l,
        ));
        found.extend(variants(input, simpler(&input.scale, [1]), |i, scale| {
            i.scale = scale
        }));
        found
    }
}

/// Each column of a layout of several alone, on a grid of its own size.
fn alone(call: &LayoutCall) -> Vec<LayoutCall> {
    const MOST: usize = 64;
    let columns = call.types.iter().zip(&call.muls).rev().take(MOST);
    let several = call.types.len() > 1;
    let grid = |(&number, &mul): (&i32, &i32)| {
        let (wide, high) = paper::transform_sides(number).unwrap_or((1, 1));
        let mut alone = call.clone();
        (alone.types, alone.muls) = (vec![number], vec![mul]);
        (alone.width, alone.height) = (8 * wide as u32, 8 * high as u32);
        fit_lengths(&mut alone);
        alone
    };
    columns.filter(|_| several).map(grid).collect()
}

/// Each is at most as wide and high; none grows from 0.
fn smaller_sides(call: &LayoutCall) -> [(u32, u32); 4] {
    let (width, height) = (call.width, call.height);
    let less = |side: u32| side.saturating_sub(8);
    [
        (width / 2, height),
        (width, height / 2),
        (less(width), height),
        (width, less(height)),
    ]
}

/// Sets every length to what the sides and modes ask for.
fn fit_lengths(call: &mut LayoutCall) {
    let (bw, bh) = paper::grid_sides(call.width, call.height, call.modes);
    call.sharpness.resize(bw * bh, 0);
    call.buffers = make::used_buffers(bw * bh);
}

/// Columns that fill the grid; once in eight times one of them has bits above the low eight. A grid
/// without blocks has surplus columns alone.
fn filled(rng: &mut Rng) -> LayoutCall {
    let (width, height) = match rng.below(400) {
        0 => (rng.between(1, 2048), rng.between(1, 2048)),
        1..=19 => (rng.between(232, 296), rng.between(1, 40)),
        20..=39 => (rng.between(1, 40), rng.between(232, 296)),
        40..=43 => (rng.between(200, 300), rng.between(200, 300)),
        44..=93 => any_strip(rng, SIDE_MOST as usize),
        _ => (rng.between(1, 64), rng.between(1, 64)),
    };
    let modes = if rng.once_in(4) {
        std::array::from_fn(|_| rng.below(4) as u32)
    } else {
        [0; 3]
    };
    let (bw, bh) = paper::grid_sides(width as u32, height as u32, modes);
    let favoured = rng.once_in(3).then(|| rng.below(TRANSFORM_COUNT) as u8);
    let mut columns = fill(rng, bw, bh, favoured).columns;
    let surplus_once_in = if columns.is_empty() { 2 } else { 8 };
    if rng.once_in(surplus_once_in) {
        let mask = if rng.once_in(2) { 0xff } else { -1 };
        columns.push((rng.any_i32() & mask, rng.any_i32()));
    }
    if rng.once_in(8) && !columns.is_empty() {
        let column = rng.below(columns.len());
        columns[column].0 |= rng.any_i32() & !0xff;
    }
    let mut call = make::layout(width as u32, height as u32, &columns);
    call.modes = modes;
    call.filter = rng.once_in(2).then(|| any_float(rng));
    call.lookup = std::array::from_fn(|_| any_float(rng));
    call.scale = rng.pick(&[1, 2, 3, 32_768, 65_536, 73_727, 73_728]);
    if rng.once_in(2) {
        call.scale = rng.between(1, 73_728) as u32;
    }
    fit_lengths(&mut call);
    for sharpness in &mut call.sharpness {
        *sharpness = rng.below(8) as i32;
    }
    call
}

fn any_float(rng: &mut Rng) -> f32 {
    match rng.below(4) {
        0 => f32::from_bits(rng.pick(&FLOATS[..FLOATS_INSIDE])),
        1 => rng.below(100) as f32 / 10.0 - 5.0,
        _ => loop {
            let float = f32::from_bits(rng.next_u32());
            if float.abs() <= 65_504.0 {
                break float;
            }
        },
    }
}

fn damage(rng: &mut Rng, call: &mut LayoutCall) {
    let column = rng.below(call.types.len().max(1));
    let block = rng.below(call.sharpness.len().max(1));
    match rng.below(24) {
        0..=2 => {
            call.types.truncate(column);
            call.muls.truncate(column);
        }
        3..=9 => set(&mut call.types, column, rng.pick(&SHORT_TYPES)),
        10..=12 => set(
            &mut call.muls,
            column,
            rng.pick(&[-1, i32::MAX, i32::MIN, -2]),
        ),
        13..=16 => set(
            &mut call.sharpness,
            block,
            rng.pick(&[8, -1, 7, i32::MIN, i32::MAX, 9]),
        ),
        17 => call.scale = rng.pick(&[0, 73_729, u32::MAX, 1]),
        18 => call.modes[rng.below(3)] = rng.pick(&[1, 2, 3, 4, u32::MAX]),
        19 => call.lookup[rng.below(8)] = f32::from_bits(rng.pick(&FLOATS)),
        20 => call.filter = Some(f32::from_bits(rng.pick(&FLOATS))),
        21 => call.width = rng.pick(&[0, 1, 2048, 2049, u32::MAX]),
        22 => call.height = rng.pick(&[0, 1, 2048, 2049, u32::MAX]),
        _ => misfit(rng, call),
    }
}

fn set(list: &mut [i32], place: usize, value: i32) {
    if let Some(element) = list.get_mut(place) {
        *element = value;
    }
}

fn misfit(rng: &mut Rng, call: &mut LayoutCall) {
    let buffers = &mut call.buffers;
    match rng.below(6) {
        0 => call.types.resize(rng.misfit(call.types.len()), 0),
        1 => call.muls.resize(rng.misfit(call.muls.len()), 0),
        2 => call.sharpness.resize(rng.misfit(call.sharpness.len()), 0),
        3 => buffers.kinds.resize(rng.misfit(buffers.kinds.len()), 9),
        4 => buffers.hf_mul.resize(rng.misfit(buffers.hf_mul.len()), 9),
        _ => buffers.sigma.resize(rng.misfit(buffers.sigma.len()), 9.0),
    }
}
