use netbuff_sys as sys;

use crate::refusal::call;
use crate::{BlockContexts, Group, Orders, Result};

#[cfg(feature = "alloc")]
use crate::Sides;
#[cfg(feature = "alloc")]
use alloc::{vec, vec::Vec};

/// The presets of a frame: how many there are, and the cluster of each context, preset by preset.
#[derive(Debug, Copy, Clone)]
pub struct Presets<'a> {
    /// 0 to 256.
    pub count: u32,
    /// [`Presets::map_length`] bytes.
    pub cluster_map: &'a [u8],
}

impl Presets<'_> {
    /// The length of a cluster map: 495 bytes for each block cluster of each preset.
    ///
    /// ```
    /// let contexts = netbuff::BlockContexts::standard();
    /// assert_eq!(netbuff::Presets::map_length(&contexts, 2), 495 * 15 * 2);
    /// ```
    pub fn map_length(contexts: &BlockContexts, presets: u32) -> usize {
        let clusters = contexts.num_block_clusters as usize;
        clusters
            .saturating_mul(495)
            .saturating_mul(presets as usize)
    }
}

/// LF grids of channels 0, 1, 2: a number for each block of the group, row by row.
#[derive(Debug, Copy, Clone)]
pub struct LfGrids<'a> {
    /// One for each channel.
    pub channels: [&'a [i32]; 3],
}

/// What a coefficient call reads.
#[derive(Debug, Copy, Clone)]
pub struct CoefficientInput<'a> {
    /// As a cut left it, or empty.
    pub group: Group<'a>,
    /// As [`block_context`](crate::block_context) left them.
    pub contexts: &'a BlockContexts,
    /// If there are any.
    pub lf: Option<LfGrids<'a>>,
    /// As [`orders`](crate::orders()) left them.
    pub orders: Orders<'a>,
    /// With their cluster map.
    pub presets: Presets<'a>,
    /// By which coefficients are shifted, 0 to 3.
    pub shift: u32,
    /// Their first bits are the preset's number: as many as the exponent of the least power of two
    /// not below the count of presets, none for one preset.
    pub bytes: &'a [u8],
    /// Counts and coefficients, these packed as [`unpack_signed`](crate::unpack_signed) unpacks
    /// them.
    pub symbols: &'a [u32],
}

impl CoefficientInput<'_> {
    /// For messages where [`coefficients`] is refused with [`Length`](crate::Refusal::Length): the
    /// first list whose length does not fit, if there is one.
    ///
    /// ```
    /// use netbuff::{BlockContexts, CoefficientInput, GridsBuf, Group, OrdersBuf, Presets, Sides};
    ///
    /// let (contexts, orders) = (BlockContexts::standard(), OrdersBuf::natural());
    /// let sides = Sides { bw: 1, bh: 1 };
    /// let input = CoefficientInput {
    ///     group: Group { sides, kinds: &[2], hf_mul: &[1] },
    ///     contexts: &contexts,
    ///     lf: None,
    ///     orders: orders.orders(),
    ///     presets: Presets { count: 1, cluster_map: &[0; 495] },
    ///     shift: 0,
    ///     bytes: &[],
    ///     symbols: &[0; 3],
    /// };
    /// let (mut grids, mut log) = (GridsBuf::zero(sides), vec![0; sides.log_length()]);
    /// assert_eq!(input.misfit(&grids.lend(&mut log)), Some("cluster_map"));
    /// ```
    pub fn misfit(&self, output: &CoefficientMut) -> Option<&'static str> {
        let (sides, presets) = (self.group.sides, self.presets);
        let blocks = sides.blocks();
        let lf = |c: usize| self.lf.map_or(blocks, |lf| lf.channels[c].len());
        let grid = |c: usize| output.grids[c].len();
        let map = Presets::map_length(self.contexts, presets.count);
        let log = output.log.len().min(sides.log_length());
        let lists = [
            ("kinds", self.group.kinds.len(), blocks),
            ("hf_mul", self.group.hf_mul.len(), blocks),
            ("LF grid of channel 0", lf(0), blocks),
            ("LF grid of channel 1", lf(1), blocks),
            ("LF grid of channel 2", lf(2), blocks),
            ("orders", self.orders.store.len(), crate::STORE_LENGTH),
            ("cluster_map", presets.cluster_map.len(), map),
            ("grid of channel 0", grid(0), sides.cells()),
            ("grid of channel 1", grid(1), sides.cells()),
            ("grid of channel 2", grid(2), sides.cells()),
            ("log", log, sides.log_length()),
        ];
        let unfit = lists.iter().find(|(_, length, due)| length != due);
        unfit.map(|(name, ..)| *name)
    }
}

/// What a coefficient call writes.
#[derive(Debug)]
pub struct CoefficientMut<'a> {
    /// The grids of channels 0, 1, 2 to which coefficients are added: 64 cells for each block, in
    /// rows of 8 × bw cells.
    pub grids: [&'a mut [i32]; 3],
    /// The cluster of each symbol read; at least [`Sides::log_length`](crate::Sides::log_length)
    /// bytes.
    pub log: &'a mut [u8],
}

/// Reads the coefficients of a pass group and adds them to the grids; the answer is the number of
/// symbols read.
///
/// Varblocks are taken by their corners, row by row, and for each of them the channels 1, 0, 2: a
/// count, then one symbol per place of its order until as many as the count says were not 0. A
/// coefficient is shifted and added to the cell of its channel, modulo 2^32. Of each symbol read the
/// log gets the cluster; log bytes behind them keep their contents. Surplus symbols are accepted.
///
/// Of an empty group the preset is read and no symbol: the answer is 0, and nothing is written. All
/// that is judged before, 3 and 14 included, is judged as for any other.
///
/// Lengths that fit are [`Sides::blocks`](crate::Sides::blocks) for the group and each LF grid,
/// [`Sides::cells`](crate::Sides::cells) for each grid,
/// [`Sides::log_length`](crate::Sides::log_length) at least for the log, [`Presets::map_length`]
/// for the cluster map and [`STORE_LENGTH`](crate::STORE_LENGTH) for the orders.
///
/// # Errors
///
/// 2, 11, 12, 1, 18, 13 (a stored place), 3, 14: grids and log stay as they were. 15, 16, 17, 24:
/// what was added and logged before stays, the refused count of 16 logged too. 24 is given when the
/// last place of a channel is passed with count remaining, its symbol read, logged and added.
///
/// ```
/// use netbuff::{coefficients, BlockContexts, CoefficientInput, GridsBuf, Group, OrdersBuf};
/// use netbuff::{Presets, Sides};
///
/// // One Dct8; in channel 1 a count of 2, then -2, 0 and 2; nothing in channels 0 and 2.
/// let sides = Sides { bw: 1, bh: 1 };
/// let (contexts, orders) = (BlockContexts::standard(), OrdersBuf::natural());
/// let cluster_map = vec![0; Presets::map_length(&contexts, 1)];
/// let input = CoefficientInput {
///     group: Group { sides, kinds: &[2], hf_mul: &[1] },
///     contexts: &contexts,
///     lf: None,
///     orders: orders.orders(),
///     presets: Presets { count: 1, cluster_map: &cluster_map },
///     shift: 0,
///     bytes: &[],
///     symbols: &[2, 3, 0, 4, 0, 0],
/// };
/// let (mut grids, mut log) = (GridsBuf::zero(sides), vec![0; sides.log_length()]);
/// assert_eq!(coefficients(&input, grids.lend(&mut log))?, 6);
/// assert_eq!((grids.at(1, 0, 1), grids.at(1, 2, 0)), (-2, 2));
/// # Ok::<(), netbuff::Refusal>(())
/// ```
pub fn coefficients(input: &CoefficientInput, output: CoefficientMut) -> Result<usize> {
    let lf = input.lf.map_or([&[][..]; 3], |lf| lf.channels);
    let [grid0, grid1, grid2] = output.grids;
    let mut symbols_read = 0;
    // SAFETY: the lists and every reference are valid for the call, what is written is lent to
    // nobody else, and nothing is kept.
    call(|x, y| unsafe {
        sys::netbuff_coefficients(
            input.group.sides.bw,
            input.group.sides.bh,
            input.group.kinds.as_ptr(),
            input.group.kinds.len(),
            input.group.hf_mul.as_ptr(),
            input.group.hf_mul.len(),
            input.contexts.num_block_clusters,
            &input.contexts.lengths,
            &input.contexts.lf_thresholds,
            &input.contexts.qf_thresholds,
            &input.contexts.block_ctx_map,
            input.lf.is_some(),
            lf[0].as_ptr(),
            lf[0].len(),
            lf[1].as_ptr(),
            lf[1].len(),
            lf[2].as_ptr(),
            lf[2].len(),
            input.orders.store.as_ptr(),
            input.orders.store.len(),
            input.presets.count,
            input.presets.cluster_map.as_ptr(),
            input.presets.cluster_map.len(),
            input.shift,
            input.bytes.as_ptr(),
            input.bytes.len(),
            input.symbols.as_ptr(),
            input.symbols.len(),
            output.log.as_mut_ptr(),
            output.log.len(),
            grid0.as_mut_ptr(),
            grid0.len(),
            grid1.as_mut_ptr(),
            grid1.len(),
            grid2.as_mut_ptr(),
            grid2.len(),
            &mut symbols_read,
            x,
            y,
        )
    })?;
    Ok(symbols_read)
}

/// The three grids of a pass group in memory of their own.
#[cfg(feature = "alloc")]
#[derive(Debug, Clone, PartialEq, Eq)]
pub struct GridsBuf {
    /// Of the group, in blocks.
    pub sides: Sides,
    /// Of channels 0, 1, 2, in rows of 8 × bw cells.
    pub channels: [Vec<i32>; 3],
}

#[cfg(feature = "alloc")]
impl GridsBuf {
    /// Grids of zeros for a group of these sides.
    pub fn zero(sides: Sides) -> Self {
        let grid = || vec![0; sides.cells()];
        Self {
            sides,
            channels: [grid(), grid(), grid()],
        }
    }

    /// Lends the grids for writing, beside a log.
    pub fn lend<'a>(&'a mut self, log: &'a mut [u8]) -> CoefficientMut<'a> {
        CoefficientMut {
            grids: self.channels.each_mut().map(Vec::as_mut_slice),
            log,
        }
    }

    /// The cell at x, y of a channel, in cells from the group's corner.
    ///
    /// # Panics
    ///
    /// Where there is no such channel or cell.
    pub fn at(&self, channel: usize, x: usize, y: usize) -> i32 {
        let width = 8 * self.sides.bw;
        assert!(x < width, "a row has {width} cells, and none at {x}");
        self.channels[channel][y * width + x]
    }
}
