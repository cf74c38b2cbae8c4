use calls::{CoefficientsCall, Refusal};

use crate::{first_refusal, is_fit, is_layout, places_inside, store_fits, ENTRIES_PER_CLUSTER};

const GROUP_SIDE_MOST: usize = 32;
const PRESETS_MOST: u32 = 256;
const SHIFT_MOST: u32 = 3;

/// What the coefficient call refuses before it reads the preset: 2, 11, 12, 1, 18, stored places. A
/// side of 0 fits: the group then has no blocks, and all else is judged as ever (document 02, No. 2).
pub fn coefficients_before_work(call: &CoefficientsCall) -> Option<Refusal> {
    let group = &call.group;
    let sides = [group.bw, group.bh];
    let sized = sides.iter().all(|&side| side <= GROUP_SIDE_MOST);
    let parameters = call.shift <= SHIFT_MOST && call.presets <= PRESETS_MOST;
    first_refusal([(2, sized), (11, parameters), (12, is_fit(&call.contexts))])
        .or_else(|| first_refusal([(1, lengths_fit(call))]))
        .or_else(|| first_refusal([(18, is_layout(group)), (13, places_inside(&call.store))]))
}

fn lengths_fit(call: &CoefficientsCall) -> bool {
    let blocks = call.group.blocks();
    let clusters = call.contexts.count as usize;
    let lf_grids = call.lf.iter().flatten();
    let buffers = &call.buffers;
    call.group.kinds.len() == blocks
        && call.group.hf_mul.len() == blocks
        && lf_grids.map(Vec::len).all(|length| length == blocks)
        && store_fits(&call.store)
        && call.cluster_map.len() == ENTRIES_PER_CLUSTER * clusters * call.presets as usize
        && buffers.grids.iter().all(|grid| grid.len() == 64 * blocks)
        && buffers.log.len() >= 192 * blocks
}
