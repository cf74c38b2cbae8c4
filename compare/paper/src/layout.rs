use calls::{ColumnCountCall, LayoutCall, Refusal};

use crate::first_refusal;

const SIDE_MOST: u32 = 2048;
const MODE_MOST: u32 = 3;
const SCALE_MOST: u32 = 73_728;
const FLOAT_MOST: f32 = 65_504.0;

/// bw and bh: pixels divided by 8, rounded up, made even where a mode says so.
pub fn grid_sides(width: u32, height: u32, modes: [u32; 3]) -> (usize, usize) {
    let side = |pixels: u32, even: bool| {
        let blocks = pixels.div_ceil(8);
        (if even {
            blocks.next_multiple_of(2)
        } else {
            blocks
        }) as usize
    };
    let any = |one: u32, other: u32| modes.iter().any(|&mode| mode == one || mode == other);
    (side(width, any(1, 2)), side(height, any(1, 3)))
}

pub fn column_count_before_work(call: &ColumnCountCall) -> Option<Refusal> {
    first_refusal([
        (2, sides_fit(call.width, call.height)),
        (11, modes_fit(call.modes)),
    ])
}

pub fn layout_before_work(call: &LayoutCall) -> Option<Refusal> {
    let sized = sides_fit(call.width, call.height);
    first_refusal([(2, sized), (11, parameters_fit(call))])
        .or_else(|| first_refusal([(1, lengths_fit(call))]))
}

/// A side of 0 fits: the grid then has no blocks (document 02, No. 2).
fn sides_fit(width: u32, height: u32) -> bool {
    [width, height].iter().all(|&side| side <= SIDE_MOST)
}

fn modes_fit(modes: [u32; 3]) -> bool {
    modes.iter().all(|&mode| mode <= MODE_MOST)
}

fn parameters_fit(call: &LayoutCall) -> bool {
    let mut floats = call.lookup.iter().chain(&call.filter);
    modes_fit(call.modes)
        && (1..=SCALE_MOST).contains(&call.scale)
        && floats.all(|float| (-FLOAT_MOST..=FLOAT_MOST).contains(float))
}

fn lengths_fit(call: &LayoutCall) -> bool {
    let (bw, bh) = grid_sides(call.width, call.height, call.modes);
    let buffers = &call.buffers;
    let per_block = [
        call.sharpness.len(),
        buffers.kinds.len(),
        buffers.hf_mul.len(),
        buffers.sigma.len(),
    ];
    call.types.len() == call.muls.len() && per_block.iter().all(|&length| length == bw * bh)
}
