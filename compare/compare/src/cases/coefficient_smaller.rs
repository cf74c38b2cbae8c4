use super::coefficients::CoefficientsInput;
use super::cut::smaller_strips;
use super::placing::single;
use super::strips::empty;
use super::{plainer, plainer_where, shorter, simpler, variants};
use crate::make;

/// Smaller coefficient calls: fewer varblocks, fewer and plainer symbols, all else plain.
pub fn smaller(input: &CoefficientsInput) -> Vec<CoefficientsInput> {
    let call = &input.call;
    let mut found = without_blocks(input);
    found.extend(alone(input));
    found.extend(one_preset(input));
    found.extend(default_contexts(input));
    found.extend(variants(input, shorter(&call.symbols), |i, list| {
        i.call.symbols = list
    }));
    for plain in [0, 1] {
        let lists = plainer_where(&call.symbols, |&symbol| symbol > plain, &plain);
        found.extend(variants(input, lists, |i, list| i.call.symbols = list));
    }
    found.extend(variants(input, simpler(&call.lf, [None]), |i, lf| {
        i.call.lf = lf
    }));
    for channel in 0..3 {
        let grids = plainer(&call.buffers.grids[channel], 0);
        let first = grids.into_iter().take(1).collect();
        found.extend(variants(input, first, |i, grid| {
            i.call.buffers.grids[channel] = grid
        }));
    }
    found.extend(variants(input, simpler(&call.shift, [0]), |i, s| {
        i.call.shift = s
    }));
    found
}

/// Whether the orders' cluster map serves the clusters of the call's record.
fn is_served(input: &CoefficientsInput) -> bool {
    let entries = paper::ENTRIES_PER_CLUSTER * input.call.contexts.count as usize;
    entries <= input.orders.cluster_map.len()
}

/// The call without its blocks; where it has none, with a smaller side or list.
fn without_blocks(input: &CoefficientsInput) -> Vec<CoefficientsInput> {
    let group = &input.call.group;
    if group.blocks() == 0 {
        return variants(input, smaller_strips(group), |i, group| {
            i.call.group = group
        });
    }
    let mut none = input.clone();
    none.call.group = empty(0, 0);
    none.call.lf = input.call.lf.as_ref().map(|_| Default::default());
    none.call.buffers.grids = Default::default();
    none.call.buffers.log.clear();
    vec![none]
}

/// Each varblock of several alone; all but contexts and symbols is plain then.
fn alone(input: &CoefficientsInput) -> Vec<CoefficientsInput> {
    const MOST: usize = 16;
    let group = &input.call.group;
    let cells = group.kinds.iter().zip(&group.hf_mul);
    let corners: Vec<_> = cells
        .filter(|(&kind, _)| paper::kind_sides(kind).is_some())
        .collect();
    if corners.len() < 2 || !is_served(input) {
        return Vec::new();
    }
    let call = |(&kind, &hf_mul): (&u8, &i32)| {
        let mut group = single(kind - 2);
        group.hf_mul[0] = hf_mul;
        let (contexts, symbols) = (input.call.contexts.clone(), &input.call.symbols);
        CoefficientsInput {
            call: input.orders.coefficients(group, contexts, symbols),
            orders: input.orders.clone(),
        }
    };
    corners.into_iter().take(MOST).map(call).collect()
}

/// The call with one preset, whose number takes no bits.
fn one_preset(input: &CoefficientsInput) -> Option<CoefficientsInput> {
    let mut one = input.clone();
    let entries = paper::ENTRIES_PER_CLUSTER * one.call.contexts.count as usize;
    one.call.presets = 1;
    one.call.cluster_map.truncate(entries);
    one.call.bytes.clear();
    (input.call.presets != 1).then_some(one)
}

/// The call with the default record.
fn default_contexts(input: &CoefficientsInput) -> Option<CoefficientsInput> {
    let mut plain = input.clone();
    plain.call.contexts = make::default_contexts();
    let presets = plain.call.presets as usize;
    let entries = paper::ENTRIES_PER_CLUSTER * plain.call.contexts.count as usize;
    let map = input
        .orders
        .cluster_map
        .get(..entries.checked_mul(presets)?)?;
    plain.call.cluster_map = map.to_vec();
    (plain.call.contexts != input.call.contexts).then_some(plain)
}
