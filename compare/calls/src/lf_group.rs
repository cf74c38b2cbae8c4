use std::ops::Range;

use crate::{ContextsCall, LayoutCall, OrdersCall};

/// All calls of an LF group, from its columns to the coefficients of its pass groups, modes 0.
#[derive(Debug, Clone)]
pub struct LfGroupCall {
    pub layout: LayoutCall,
    pub contexts: ContextsCall,
    pub orders: OrdersCall,
    /// LF numbers of channels 0, 1, 2, one for each block of the LF group.
    pub lf: [Vec<i32>; 3],
    /// Of one preset.
    pub cluster_map: Vec<u8>,
    /// Of each pass group.
    pub symbols: Vec<Vec<u32>>,
}

impl LfGroupCall {
    /// Width and height in blocks.
    pub fn sides(&self) -> (usize, usize) {
        let blocks = |pixels: u32| pixels.div_ceil(8) as usize;
        (blocks(self.layout.width), blocks(self.layout.height))
    }

    /// The pass groups, row by row.
    pub fn groups(&self) -> Vec<PassGroup> {
        let (bw, bh) = self.sides();
        let parts = |side: usize| {
            let starts = (0..side).step_by(PassGroup::SIDE);
            starts.map(move |start| start..side.min(start + PassGroup::SIDE))
        };
        let row = |rows: Range<usize>| {
            parts(bw).map(move |columns| PassGroup {
                columns,
                rows: rows.clone(),
            })
        };
        parts(bh).flat_map(row).collect()
    }
}

/// The blocks of a pass group within its LF group.
#[derive(Debug, Clone, PartialEq, Eq)]
pub struct PassGroup {
    pub columns: Range<usize>,
    pub rows: Range<usize>,
}

impl PassGroup {
    /// The most blocks each way.
    pub const SIDE: usize = 32;

    pub fn blocks(&self) -> usize {
        self.columns.len() * self.rows.len()
    }
}

/// What an LF group's coefficient calls fill: the grids of channels 0, 1, 2 of each pass group, and
/// a log that the calls take in turn.
#[derive(Debug, Clone, PartialEq, Eq)]
pub struct LfGroupOutput {
    pub grids: Vec<[Vec<i32>; 3]>,
    pub log: Vec<u8>,
}

impl LfGroupOutput {
    pub fn zeros(call: &LfGroupCall) -> Self {
        let groups = call.groups();
        let grids = |group: &PassGroup| std::array::from_fn(|_| vec![0; 64 * group.blocks()]);
        let most = groups.iter().map(PassGroup::blocks).max().unwrap_or(0);
        Self {
            grids: groups.iter().map(grids).collect(),
            log: vec![0; 192 * most],
        }
    }
}
