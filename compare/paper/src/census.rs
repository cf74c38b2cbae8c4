//! The context census (document 02, No. 9), over the Rust's formula and tables (`walk_contexts`).

use calls::{Refusal, Situation};

use crate::first_refusal;
use crate::walk::PLACES;
use crate::walk_contexts::coefficient_context;

/// The blocks of the largest varblock.
const BLOCKS_MOST: u32 = 1024;

/// What the census refuses: a situation that it does not speak of.
pub fn census_before_work(situation: &Situation) -> Option<Refusal> {
    let &Situation {
        blocks,
        count,
        place,
        prev,
    } = situation;
    let sized = blocks.is_power_of_two() && blocks <= BLOCKS_MOST;
    let [count, place, places] = [count, place, PLACES].map(u64::from);
    let due = count >= 1 && count + place <= places * u64::from(blocks);
    first_refusal([(11, sized), (11, due), (11, prev <= 1)])
}

/// The context number of the coefficient in a situation that is not refused.
pub fn census(situation: &Situation) -> u32 {
    let behind = situation.count - 1;
    let filled_before = situation.prev == 1;
    coefficient_context(behind, situation.place, situation.blocks, filled_before) as u32
}
