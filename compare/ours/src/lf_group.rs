use calls::{Answer, LayoutBuffers, LfGroupCall, LfGroupOutput, PassGroup, Store};
use netbuff::{
    block_context, coefficients, cut, orders, BlockClusters, BlockContexts, CoefficientInput,
    CoefficientMut, Group, GroupMut, Layout, LfGrids, Orders, Presets, Sides,
};

use super::{answer, layout_into};

/// What is lent to the cut of a pass group: the whole layout, or only the rows of blocks in which
/// the pass group lies, which are a layout too, as no varblock crosses a 32-block border.
#[derive(Debug, Copy, Clone, PartialEq, Eq)]
pub enum CutOf {
    Layout,
    Rows,
}

/// What an LF group's user keeps between its calls.
pub struct LfGroupBuffers {
    cut_of: CutOf,
    layout: LayoutBuffers,
    contexts: BlockContexts,
    store: Store,
    group: GroupRecord,
}

/// A pass group's own record: kinds, hf_mul and LF numbers, with room for the largest.
struct GroupRecord {
    kinds: Vec<u8>,
    hf_mul: Vec<i32>,
    lf: [Vec<i32>; 3],
}

impl LfGroupBuffers {
    pub fn new(call: &LfGroupCall, cut_of: CutOf) -> Self {
        const MOST: usize = PassGroup::SIDE * PassGroup::SIDE;
        Self {
            cut_of,
            layout: call.layout.buffers.clone(),
            contexts: BlockContexts::ZERO,
            store: call.orders.store.clone(),
            group: GroupRecord {
                kinds: vec![0; MOST],
                hf_mul: vec![0; MOST],
                lf: std::array::from_fn(|_| Vec::with_capacity(MOST)),
            },
        }
    }

    /// Makes all calls of an LF group: layout, contexts, orders, and for each pass group a cut, a
    /// copy of its LF numbers and its coefficients. The answer is the number of symbols that the
    /// pass groups read together.
    pub fn run(&mut self, call: &LfGroupCall, output: &mut LfGroupOutput) -> Answer<usize> {
        layout_into(&call.layout, &mut self.layout)?;
        let lent = &call.contexts;
        let clusters = BlockClusters {
            count: lent.count,
            map: &lent.map,
        };
        answer(block_context(&lent.bytes, clusters, &mut self.contexts))?;
        let lent = &call.orders;
        answer(orders(&lent.bytes, &lent.symbols, &mut self.store))?;
        let mut read = 0;
        for (index, group) in call.groups().iter().enumerate() {
            self.cut(call, index, group)?;
            read += self.coefficients(call, index, group, output)?;
        }
        Ok(read)
    }

    /// Fills the record of a pass group.
    fn cut(&mut self, call: &LfGroupCall, index: usize, group: &PassGroup) -> Answer<()> {
        let (bw, bh) = call.sides();
        let (rows, index) = match self.cut_of {
            CutOf::Layout => (0..bh, index),
            CutOf::Rows => (group.rows.clone(), group.columns.start / PassGroup::SIDE),
        };
        let cells = rows.start * bw..rows.end * bw;
        let lent = Layout {
            sides: Sides { bw, bh: rows.len() },
            kinds: &self.layout.kinds[cells.clone()],
            hf_mul: &self.layout.hf_mul[cells],
        };
        let GroupRecord { kinds, hf_mul, lf } = &mut self.group;
        let (kinds, hf_mul) = (&mut kinds[..group.blocks()], &mut hf_mul[..group.blocks()]);
        answer(cut(lent, index, GroupMut { kinds, hf_mul }))?;
        for (own, numbers) in lf.iter_mut().zip(&call.lf) {
            own.clear();
            for row in group.rows.clone() {
                own.extend_from_slice(&numbers[row * bw..][group.columns.clone()]);
            }
        }
        Ok(())
    }

    /// Reads the coefficients of the pass group whose record was filled last.
    fn coefficients(
        &self,
        call: &LfGroupCall,
        index: usize,
        group: &PassGroup,
        output: &mut LfGroupOutput,
    ) -> Answer<usize> {
        let blocks = group.blocks();
        let input = CoefficientInput {
            group: Group {
                sides: Sides {
                    bw: group.columns.len(),
                    bh: group.rows.len(),
                },
                kinds: &self.group.kinds[..blocks],
                hf_mul: &self.group.hf_mul[..blocks],
            },
            contexts: &self.contexts,
            lf: Some(LfGrids {
                channels: self.group.lf.each_ref().map(Vec::as_slice),
            }),
            orders: Orders { store: &self.store },
            presets: Presets {
                count: 1,
                cluster_map: &call.cluster_map,
            },
            shift: 0,
            bytes: &[],
            symbols: &call.symbols[index],
        };
        let grids = output.grids[index].each_mut().map(Vec::as_mut_slice);
        let log = &mut output.log;
        answer(coefficients(&input, CoefficientMut { grids, log }))
    }
}
