use std::fmt;
use std::hash::{DefaultHasher, Hash, Hasher};
use std::sync::Arc;

use calls::{CoefficientBuffers, CoefficientsCall, Contexts, Layout, Outcome, LIST_MOST};
use paper::TRANSFORM_COUNT;

use super::coefficient_faults::{damage_call, damage_symbols};
use super::coefficient_smaller::smaller;
use super::digits::{lists_count, Digits};
use super::last_places::{each_transform, one_block, EACH_TRANSFORM, ONE_BLOCK};
use super::orders::symbols;
use super::placing::{fill, single};
use super::strips::{self, any_strip, GroupStrip};
use super::symbol_stream::{crowded_stream, remaining_stream, symbol_stream};
use super::Case;
use crate::expected;
use crate::make::{self, OrdersAndStore};
use crate::rng::Rng;

/// Coefficient calls over a few orders that accepted order calls wrote.
pub struct CoefficientsCase {
    orders: Vec<Arc<OrdersAndStore>>,
}

#[derive(Clone)]
pub struct CoefficientsInput {
    pub call: CoefficientsCall,
    pub orders: Arc<OrdersAndStore>,
}

impl fmt::Debug for CoefficientsInput {
    fn fmt(&self, f: &mut fmt::Formatter<'_>) -> fmt::Result {
        write!(
            f,
            "{:?} with used orders {:#x}",
            self.call, self.orders.used
        )
    }
}

/// Entries of the cluster map of 256 presets and 16 clusters.
pub const MAP_MOST: usize = 256 * 16 * paper::ENTRIES_PER_CLUSTER;
/// Short inputs: one Dct8 with default contexts, over lists of these symbols.
const SHORT_SYMBOLS: [u32; 6] = [0, 1, 2, 3, 63, 64];
const SHORT_MOST: usize = 6;
/// At how many places the symbols of each transform end, half of them counted from the end.
const SHORT_ENDS: usize = 400;
/// Widths and heights of groups, 0 among them.
const SIDES: usize = 33;

fn short_lists() -> usize {
    lists_count(SHORT_SYMBOLS.len(), SHORT_MOST)
}

impl CoefficientsCase {
    /// So many of the short inputs, the first of them, are about the last places of a channel.
    pub const LAST_PLACES: usize = ONE_BLOCK + EACH_TRANSFORM;
    /// So many behind them are groups without blocks.
    pub const STRIPS: usize = strips::GROUPS;

    pub fn new(seed: u64) -> Self {
        let mut rng = Rng::new(seed);
        let cluster_map = rng.bytes(MAP_MOST);
        let used = [0, 0x1fff, 0x7f, 0x5f, 0x13, 0x380, 0x1c00, 0x1, 0x1e];
        let orders = used.map(|used| {
            let symbols = symbols(&mut rng, used);
            OrdersAndStore::new(used, &symbols, cluster_map.clone())
        });
        Self::over(orders)
    }

    /// Calls over the given orders, whose cluster maps serve 256 presets of 16 clusters.
    pub fn over(orders: impl IntoIterator<Item = OrdersAndStore>) -> Self {
        Self {
            orders: orders.into_iter().map(Arc::new).collect(),
        }
    }

    /// One varblock with default contexts, one of its channels read about up to its last place.
    fn last_places(&self, number: usize) -> CoefficientsInput {
        let (transform, symbols) = match number.checked_sub(ONE_BLOCK) {
            None => (0, one_block(number)),
            Some(number) => each_transform(number),
        };
        let which = number % self.orders.len();
        let mut input = self.input(which, single(transform), make::default_contexts());
        input.call.symbols = symbols;
        input
    }

    /// A group without blocks, with default contexts.
    fn strip(&self, number: usize) -> CoefficientsInput {
        let GroupStrip {
            group,
            presets,
            bytes,
            change,
        } = strips::group(number);
        let which = number % self.orders.len();
        let mut input = self.input(which, group, make::default_contexts());
        set_presets(&mut input.call, presets, &input.orders.cluster_map);
        input.call.bytes = bytes.to_vec();
        change(&mut input.call);
        input
    }

    /// One Dct8 with default contexts, over a list of a few symbols.
    fn short_list(&self, number: usize) -> CoefficientsInput {
        let group = single(0);
        let mut input = self.input(0, group, make::default_contexts());
        input.call.symbols = Digits::of(number).list(&SHORT_SYMBOLS, SHORT_MOST);
        input
    }

    /// One varblock of each transform, its symbols ending at each of the first and last places.
    fn ending(&self, number: usize) -> CoefficientsInput {
        let mut digits = Digits::of(number);
        let transform = digits.next(TRANSFORM_COUNT) as u8;
        let place = digits.next(SHORT_ENDS);
        let mut rng = Rng::new(number as u64 % TRANSFORM_COUNT as u64);
        let group = single(transform);
        let which = rng.below(self.orders.len());
        let mut input = self.input(which, group, make::default_contexts());
        let symbols = symbol_stream(&mut rng, &input.call.group, 2);
        let end = match place.checked_sub(SHORT_ENDS / 2) {
            Some(before_last) => symbols.len().saturating_sub(before_last),
            None => place.min(symbols.len()),
        };
        input.call.symbols = symbols[..end].to_vec();
        input
    }

    /// A group of each width and height.
    fn of_sides(&self, number: usize) -> CoefficientsInput {
        let (bw, bh) = (number % SIDES, number / SIDES);
        let mut rng = Rng::new(number as u64);
        let group = fill(&mut rng, bw, bh, None).layout;
        let which = rng.below(self.orders.len());
        let mut input = self.input(which, group, contexts(&mut rng));
        input.call.symbols = symbol_stream(&mut rng, &input.call.group, 4);
        input
    }

    fn input(&self, which: usize, group: Layout, contexts: Contexts) -> CoefficientsInput {
        let orders = self.orders[which].clone();
        CoefficientsInput {
            call: orders.coefficients(group, contexts, &[]),
            orders,
        }
    }
}

impl Case for CoefficientsCase {
    const NAME: &'static str = "coefficients";
    const SHARE: u32 = 6;
    type Input = CoefficientsInput;
    type Value = usize;
    type Buffers = CoefficientBuffers;

    fn expected(&self, input: &CoefficientsInput) -> Outcome<usize, CoefficientBuffers> {
        expected::coefficients(&input.call, &input.orders.orders)
    }

    fn by_model(
        &self,
        _: &CoefficientsInput,
        expected: &Outcome<usize, CoefficientBuffers>,
    ) -> Option<bool> {
        Some(expected::count_remains(expected))
    }

    fn without_blocks(&self, input: &CoefficientsInput) -> Option<bool> {
        Some(input.call.group.blocks() == 0)
    }

    fn short_count(&self) -> usize {
        let strips = Self::LAST_PLACES + Self::STRIPS;
        strips + short_lists() + SHORT_ENDS * TRANSFORM_COUNT + SIDES * SIDES
    }

    fn short(&self, number: usize) -> CoefficientsInput {
        let Some(strip) = number.checked_sub(Self::LAST_PLACES) else {
            return self.last_places(number);
        };
        let Some(list) = strip.checked_sub(Self::STRIPS) else {
            return self.strip(strip);
        };
        let Some(end) = list.checked_sub(short_lists()) else {
            return self.short_list(list);
        };
        match end.checked_sub(SHORT_ENDS * TRANSFORM_COUNT) {
            None => self.ending(end),
            Some(sides) => self.of_sides(sides),
        }
    }

    fn random(&self, rng: &mut Rng) -> CoefficientsInput {
        let contexts = if rng.once_in(3) {
            make::default_contexts()
        } else {
            contexts(rng)
        };
        let group = group(rng);
        let mut input = self.input(rng.below(self.orders.len()), group, contexts);
        let call = &mut input.call;
        let sparseness = rng.pick(&[1, 2, 8, 64]);
        let stream = match rng.below(16) {
            0 => crowded_stream,
            1 | 2 => remaining_stream,
            _ => symbol_stream,
        };
        call.symbols = stream(rng, &call.group, sparseness);
        call.shift = rng.below(4) as u32;
        presets(rng, call, &input.orders.cluster_map);
        if rng.once_in(2) {
            call.lf = Some(std::array::from_fn(|c| lf_grid(rng, call, c)));
        }
        call.buffers = buffers(rng, call.group.blocks());
        if rng.once_in(2) {
            damage_symbols(rng, &mut call.symbols);
        }
        if rng.once_in(6) {
            damage_call(rng, call);
        }
        input
    }

    /// Of the group, the used orders, shift and symbols: inputs that differ in nothing else, as in
    /// contexts, LF numbers or starting buffers, count as one.
    fn digest(&self, input: &CoefficientsInput) -> Option<u64> {
        let group = &input.call.group;
        let mut hasher = DefaultHasher::new();
        (group.bw, group.bh, &group.kinds, &group.hf_mul).hash(&mut hasher);
        (input.orders.used, input.call.shift, &input.call.symbols).hash(&mut hasher);
        Some(hasher.finish())
    }

    fn smaller(&self, input: &CoefficientsInput) -> Vec<CoefficientsInput> {
        smaller(input)
    }
}

/// A record that is fit, with thresholds on any of its lists.
fn contexts(rng: &mut Rng) -> Contexts {
    let mut record = Contexts {
        count: rng.between(1, 16) as u32,
        ..Contexts::ZERO
    };
    let mut room = 64;
    let turn = rng.below(4);
    for list in 0..4 {
        let most = rng.pick(&[0, 1, 3, LIST_MOST]);
        let length = rng.below(most + 1).min(room - 1);
        room /= length + 1;
        record.lengths[(list + turn) % 4] = length as u32;
    }
    // Places that are not used may hold anything.
    record.lf = std::array::from_fn(|_| threshold(rng));
    record.qf = std::array::from_fn(|_| rng.between(1, 300) as u32);
    let count = record.count as usize;
    record.map = std::array::from_fn(|_| rng.below(count) as u8);
    record
}

fn threshold(rng: &mut Rng) -> i32 {
    match rng.below(4) {
        0 => rng.any_i32(),
        _ => rng.below(9) as i32 - 4,
    }
}

/// A group, seldom large; once in ten times it has no blocks.
fn group(rng: &mut Rng) -> Layout {
    let favoured = rng.once_in(2).then(|| rng.below(TRANSFORM_COUNT) as u8);
    let (bw, bh) = match (rng.below(40), favoured) {
        (0, _) => (rng.between(1, 32), rng.between(1, 32)),
        (36.., _) => any_strip(rng, 32),
        (1..=12, Some(transform)) => paper::transform_sides(transform.into()).expect("a transform"),
        _ => (rng.between(1, 5), rng.between(1, 5)),
    };
    fill(rng, bw, bh, favoured).layout
}

/// LF numbers, mostly around the thresholds of their channel.
fn lf_grid(rng: &mut Rng, call: &CoefficientsCall, channel: usize) -> Vec<i32> {
    let thresholds = call.contexts.lf_list(channel);
    let number = |_| {
        if thresholds.is_empty() || rng.once_in(4) {
            rng.any_i32()
        } else {
            let offset = rng.below(3) as i32 - 1;
            rng.pick(thresholds).wrapping_add(offset)
        }
    };
    (0..call.group.blocks()).map(number).collect()
}

/// So many presets, with a cluster map of their length.
fn set_presets(call: &mut CoefficientsCall, presets: u32, cluster_map: &[u8]) {
    let entries = paper::ENTRIES_PER_CLUSTER * call.contexts.count as usize;
    call.presets = presets;
    call.cluster_map = cluster_map[..entries * presets as usize].to_vec();
}

/// A number of presets and the bits of one of them, seldom of none.
fn presets(rng: &mut Rng, call: &mut CoefficientsCall, cluster_map: &[u8]) {
    let presets = match rng.below(40) {
        0 => rng.between(0, 256) as u32,
        1 => 0,
        _ => rng.between(1, 5) as u32,
    };
    set_presets(call, presets, cluster_map);
    let any_below = if rng.once_in(8) {
        256
    } else {
        call.presets.max(1)
    };
    call.bytes = vec![rng.below(any_below as usize) as u8];
    match rng.below(16) {
        0 => call.bytes.clear(),
        1 => call.bytes.push(0xff),
        _ => {}
    }
}

fn buffers(rng: &mut Rng, blocks: usize) -> CoefficientBuffers {
    let zero = rng.once_in(2);
    let extra = if rng.once_in(4) { rng.below(9) } else { 0 };
    let grid = |rng: &mut Rng| {
        if zero {
            vec![0; 64 * blocks]
        } else {
            rng.words(64 * blocks)
        }
    };
    CoefficientBuffers {
        grids: std::array::from_fn(|_| grid(rng)),
        log: rng.bytes(192 * blocks + extra),
    }
}
