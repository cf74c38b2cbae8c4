//! Which entry of a preset's part of the cluster map a count or a coefficient has (document 01, Block
//! contexts and Coefficients): the Rust's formulas, and its two context tables by their steps.

use calls::{CoefficientsCall, ORDER_COUNT};

/// Entries of counts for each cluster, in front of those of coefficients.
pub const COUNT_ENTRIES: usize = 37;
/// Entries of the coefficients of a block context.
pub const COEFFICIENT_ENTRIES: usize = 458;
/// Entries of the cluster map for each preset and cluster.
pub const ENTRIES_PER_CLUSTER: usize = COUNT_ENTRIES + COEFFICIENT_ENTRIES;

/// The block context of the varblock whose corner is at a cell, for the channel that is read in its
/// turn.
pub fn block_context(call: &CoefficientsCall, cell: usize, order: usize, turn: usize) -> usize {
    let contexts = &call.contexts;
    let qf = contexts.qf_list();
    let mut index = (ORDER_COUNT * turn + order) * (qf.len() + 1);
    index += above(qf, call.group.hf_mul[cell]);
    for channel in [0, 2, 1] {
        let thresholds = contexts.lf_list(channel);
        index *= thresholds.len() + 1;
        if let Some(grids) = &call.lf {
            index += above(thresholds, grids[channel][cell]);
        }
    }
    contexts.map[index].into()
}

/// How many thresholds a number is above.
fn above<T: Copy + Into<i64>>(thresholds: &[T], number: i32) -> usize {
    let number = i64::from(number);
    let passed = thresholds.iter().filter(|&&each| number > each.into());
    passed.count()
}

/// The entry of a count: for each prediction one for each cluster.
pub fn count_entry(call: &CoefficientsCall, context: usize, predicted: u32) -> usize {
    let step = if predicted < 8 {
        predicted
    } else {
        4 + predicted / 2
    };
    step as usize * call.contexts.count as usize + context
}

/// Where the entries of a block context's coefficients begin.
pub fn coefficient_entries(call: &CoefficientsCall, context: usize) -> usize {
    context * COEFFICIENT_ENTRIES + COUNT_ENTRIES * call.contexts.count as usize
}

/// The context of a coefficient: by what remains of the count behind it, by its place, both for each
/// block, and by whether the one before was not 0.
pub fn coefficient_context(behind: u32, place: u32, blocks: u32, filled_before: bool) -> usize {
    let context = by_count(behind / blocks) + by_place(place / blocks);
    (2 * context + u32::from(filled_before)) as usize
}

/// The table of counts, 0 to 62.
fn by_count(behind: u32) -> u32 {
    match behind {
        0 => 0,
        1 => 31,
        2..=3 => 62,
        4..=7 => 93,
        8..=11 => 123,
        12..=19 => 152,
        20..=31 => 180,
        _ => 206,
    }
}

/// The table of frequencies, 0 to 62.
fn by_place(place: u32) -> u32 {
    match place {
        0..=14 => place,
        15..=30 => 15 + (place - 15) / 2,
        _ => 23 + (place - 31) / 4,
    }
}
