use calls::{Answer, LfGroupCall, LfGroupOutput};
use jxl_bitstream::{Bitstream, Coded};
use jxl_grid::SharedSubgrid;

use super::coefficients::read_group;
use super::layout::LayoutRun;
use super::{contexts, orders, refusal_of};
use crate::HfCoeffParams;

/// All calls of an LF group made ready, so that running them takes no copy of the lent columns.
pub struct LfGroupRun<'a> {
    call: &'a LfGroupCall,
    layout: LayoutRun<'a>,
}

impl<'a> LfGroupRun<'a> {
    pub fn new(call: &'a LfGroupCall) -> Self {
        let columns = call.layout.types.len();
        Self {
            call,
            layout: LayoutRun::new(&call.layout, columns),
        }
    }

    /// Each pass group's blocks and LF numbers are a view of those of the whole LF group, and the
    /// orders are used as they were read. The answer is the number of symbols that the pass groups
    /// read together.
    pub fn run(self, output: &mut LfGroupOutput) -> Answer<usize> {
        let call = self.call;
        let metadata = self
            .layout
            .run()
            .map_err(|error| refusal_of(&error, &Bitstream::new(&[])))?;
        let contexts = contexts(&call.contexts)?.contexts;
        let orders = orders(&call.orders.bytes, &call.orders.symbols, &call.cluster_map)?;
        let (bw, bh) = call.sides();
        let lf = call.lf.each_ref();
        let lf = lf.map(|numbers| SharedSubgrid::of(bw, bh, numbers));
        let mut read = 0;
        let groups = call.groups().into_iter().zip(&call.symbols);
        for ((group, symbols), grids) in groups.zip(&mut output.grids) {
            let (columns, rows) = (group.columns, group.rows);
            let params = HfCoeffParams {
                num_hf_presets: 1,
                hf_block_ctx: &contexts,
                block_info: metadata
                    .block_info
                    .as_subgrid()
                    .subgrid(columns.clone(), rows.clone()),
                jpeg_upsampling: [0; 3],
                lf_quant: Some(lf.map(|lf| lf.subgrid(columns.clone(), rows.clone()))),
                hf_pass: &orders.pass,
                coeff_shift: 0,
                tracker: None,
            };
            let coded = Coded {
                symbols,
                log: &mut output.log,
                ..Coded::default()
            };
            read += read_group(params, Bitstream::with_coded(&[], coded), grids)?;
        }
        Ok(read)
    }
}
