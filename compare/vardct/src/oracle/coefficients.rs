use calls::{Answer, CoefficientBuffers, CoefficientsCall, Outcome};
use jxl_bitstream::{Bitstream, Coded};
use jxl_grid::{MutableSubgrid, SharedSubgrid};

use super::contexts::own_form;
use super::orders::Orders;
use super::refusal_of;
use super::transform::block_info;
use crate::{write_hf_coeff, BlockInfo, HfBlockContext, HfCoeffParams};

/// The coefficient call over the given orders; the answer is the number of symbols read.
///
/// The orders' own cluster map is used: the call's must be its beginning.
pub fn coefficients(
    call: &CoefficientsCall,
    orders: &Orders,
) -> Outcome<usize, CoefficientBuffers> {
    let mut buffers = call.buffers.clone();
    let answer = CoefficientsRun::new(call, orders).run(&mut buffers);
    Outcome { answer, buffers }
}

/// A coefficient call made ready: the group and the contexts are in the Rust's own form.
pub struct CoefficientsRun<'a> {
    call: &'a CoefficientsCall,
    orders: &'a Orders,
    blocks: Vec<BlockInfo>,
    contexts: HfBlockContext,
}

impl<'a> CoefficientsRun<'a> {
    pub fn new(call: &'a CoefficientsCall, orders: &'a Orders) -> Self {
        let group = &call.group;
        let cells = group.kinds.iter().zip(&group.hf_mul);
        Self {
            call,
            orders,
            blocks: cells
                .map(|(&kind, &hf_mul)| block_info(kind, hf_mul))
                .collect(),
            contexts: own_form(&call.contexts),
        }
    }

    pub fn run(&self, buffers: &mut CoefficientBuffers) -> Answer<usize> {
        let call = self.call;
        let (bw, bh) = (call.group.bw, call.group.bh);
        let lf = call.lf.as_ref();
        let params = HfCoeffParams::<i32> {
            num_hf_presets: call.presets,
            hf_block_ctx: &self.contexts,
            block_info: SharedSubgrid::of(bw, bh, &self.blocks),
            jpeg_upsampling: [0; 3],
            lf_quant: lf.map(|lf| lf.each_ref().map(|grid| SharedSubgrid::of(bw, bh, grid))),
            hf_pass: &self.orders.pass,
            coeff_shift: call.shift,
            tracker: None,
        };
        let CoefficientBuffers { grids, log } = buffers;
        let coded = Coded {
            symbols: &call.symbols,
            log,
            ..Coded::default()
        };
        read_group(params, Bitstream::with_coded(&call.bytes, coded), grids)
    }
}

/// Reads a group's coefficients into its grids; the answer is the number of symbols read.
pub(super) fn read_group(
    params: HfCoeffParams<i32>,
    mut bitstream: Bitstream,
    grids: &mut [Vec<i32>; 3],
) -> Answer<usize> {
    let (bw, bh) = (params.block_info.width(), params.block_info.height());
    let mut output = grids
        .each_mut()
        .map(|grid| MutableSubgrid::of(8 * bw, 8 * bh, grid));
    match write_hf_coeff(&mut bitstream, params, &mut output) {
        Ok(()) => Ok(bitstream.coded.symbols_read),
        Err(error) => Err(refusal_of(&error, &bitstream)),
    }
}
