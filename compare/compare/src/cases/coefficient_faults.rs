//! Coefficient calls made faulty.

use std::sync::Arc;

use calls::CoefficientsCall;

use super::placing::damage;
use crate::rng::Rng;

/// Symbols that are refused or surplus, most often; where there are none, surplus ones.
pub fn damage_symbols(rng: &mut Rng, symbols: &mut Vec<u32>) {
    let place = rng.below(symbols.len());
    match rng.below(10) {
        _ if symbols.is_empty() => symbols.extend([rng.pick(&[0, 1, 64]), rng.any_u32()]),
        0 => symbols.truncate(symbols.len() - 1),
        1..=3 => symbols.truncate(place),
        4 | 5 => symbols[place] = rng.pick(&[63, 64, 126, 127, 252, 253, 64_512, 64_513, u32::MAX]),
        6 | 7 => symbols[place] = 0,
        _ => symbols.extend([3, 0, u32::MAX]),
    }
}

pub fn damage_call(rng: &mut Rng, call: &mut CoefficientsCall) {
    let channel = rng.below(3);
    match rng.below(18) {
        0 => call.group.bw = rng.pick(&[0, 33, usize::MAX]),
        1 => call.group.bh = rng.pick(&[0, 33, usize::MAX]),
        2 => call.shift = rng.pick(&[4, u32::MAX]),
        3 => call.presets = rng.pick(&[257, u32::MAX]),
        4 => call.contexts.count = rng.pick(&[0, 17, u32::MAX, 1]),
        5 => call.contexts.lengths[rng.below(4)] = rng.pick(&[15, 16, u32::MAX]),
        6 => call.contexts.qf[0] = rng.pick(&[0, 301, 300, u32::MAX]),
        7 => call.contexts.map[rng.below(39)] = rng.pick(&[15, 16, 255]),
        8 => call
            .cluster_map
            .resize(rng.misfit(call.cluster_map.len()), 0),
        9 => misfit_grid(rng, &mut call.buffers.grids[channel]),
        10 => call
            .buffers
            .log
            .truncate((192 * call.group.blocks()).saturating_sub(1)),
        11 => call
            .lf
            .iter_mut()
            .for_each(|lf| misfit_grid(rng, &mut lf[channel])),
        12 => call.group.kinds.push(1),
        13..=15 => damage_store(rng, call),
        _ => damage(rng, &mut call.group),
    }
}

fn misfit_grid(rng: &mut Rng, grid: &mut Vec<i32>) {
    grid.resize(rng.misfit(grid.len()), 0);
}

/// A store of another length, or with one number outside.
fn damage_store(rng: &mut Rng, call: &mut CoefficientsCall) {
    let mut store = call.store.to_vec();
    if rng.once_in(3) {
        store.resize(rng.misfit(store.len()), 0);
    } else {
        let place = rng.below(store.len());
        store[place] = rng.pick(&[8, 16, 255, 256, u16::MAX]);
    }
    let untouched = store == *call.store;
    if !untouched && paper::store_fits(&store) && paper::places_inside(&store) {
        // Inside, yet no store of an order call: not compared (document 01, Coefficients).
        return;
    }
    call.store = Arc::new(store);
}
