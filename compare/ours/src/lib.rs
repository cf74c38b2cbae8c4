//! Netbuff's answers, through its safe wrapper, in the words of the comparison.

mod lf_group;

pub use lf_group::{CutOf, LfGroupBuffers};

use calls::{
    AlikeCall, Answer, CoefficientBuffers, CoefficientsCall, ColumnCount, ColumnCountCall,
    Contexts, ContextsCall, CutCall, GroupBuffers, LayoutBuffers, LayoutCall, OrderCall,
    OrdersCall, Outcome, ReadCall, ReadKind, Refusal, Situation, Store, Transform,
};
use netbuff::{
    BlockClusters, BlockContexts, Choice, CoefficientInput, CoefficientMut, Columns, Filter, Group,
    GroupMut, LayoutInput, LayoutMut, LfGrids, LfGroup, Orders, Place, Presets, Sides,
};

fn answer<T>(result: netbuff::Result<T>) -> Answer<T> {
    result.map_err(|refusal| {
        let (x, y) = refusal.position();
        let number = refusal.number();
        Refusal { number, x, y }
    })
}

/// The outcome of a call that is lent nothing to write to.
fn plain<T>(result: netbuff::Result<T>) -> Outcome<T, ()> {
    Outcome {
        answer: answer(result),
        buffers: (),
    }
}

pub fn transform(&number: &u32) -> Outcome<Transform, ()> {
    plain(netbuff::transform(number).map(|read| Transform {
        wide: read.wide,
        high: read.high,
        order: read.order,
        turns: read.turns,
    }))
}

pub fn signed(&u: &u32) -> Outcome<i32, ()> {
    plain(Ok(netbuff::unpack_signed(u)))
}

pub fn read(input: &ReadCall) -> Outcome<(u32, usize), ()> {
    let at = Place {
        byte: input.byte,
        bit: input.bit,
    };
    let read = match &input.read {
        ReadKind::Bits(n) => netbuff::read_bits(&input.bytes, at, *n),
        ReadKind::U32(choices) => {
            let choices = choices.map(|(offset, bits)| Choice { offset, bits });
            netbuff::read_u32(&input.bytes, at, choices)
        }
    };
    plain(read.map(|read| (read.value, 8 * read.next.byte + read.next.bit as usize)))
}

pub fn column_count(call: &ColumnCountCall) -> Outcome<ColumnCount, ()> {
    let group = LfGroup {
        width: call.width,
        height: call.height,
        modes: call.modes,
    };
    plain(
        netbuff::column_count(&call.bytes, group).map(|read| ColumnCount {
            count: read.count,
            bits_read: read.bits_read,
        }),
    )
}

pub fn layout(call: &LayoutCall) -> Outcome<usize, LayoutBuffers> {
    let mut buffers = call.buffers.clone();
    Outcome {
        answer: layout_into(call, &mut buffers),
        buffers,
    }
}

/// The layout call on other buffers than its own.
pub fn layout_into(call: &LayoutCall, buffers: &mut LayoutBuffers) -> Answer<usize> {
    let input = LayoutInput {
        group: LfGroup {
            width: call.width,
            height: call.height,
            modes: call.modes,
        },
        columns: Columns {
            types: &call.types,
            muls: &call.muls,
        },
        sharpness: &call.sharpness,
        filter: call.filter.map_or(Filter::Off, Filter::On),
        lookup: &call.lookup,
        scale: call.scale,
    };
    let output = LayoutMut {
        kinds: &mut buffers.kinds,
        hf_mul: &mut buffers.hf_mul,
        sigma: &mut buffers.sigma,
    };
    answer(netbuff::layout(&input, output))
}

/// The sides of the grid of an LF group, in blocks.
pub fn grid_sides(call: &LayoutCall) -> (usize, usize) {
    let group = LfGroup {
        width: call.width,
        height: call.height,
        modes: call.modes,
    };
    let Sides { bw, bh } = group.sides();
    (bw, bh)
}

pub fn orders(call: &OrdersCall) -> Outcome<usize, Store> {
    let mut store = call.store.clone();
    Outcome {
        answer: orders_into(call, &mut store),
        buffers: store,
    }
}

/// The order call on another store than its own.
pub fn orders_into(call: &OrdersCall, store: &mut Store) -> Answer<usize> {
    answer(netbuff::orders(&call.bytes, &call.symbols, store))
}

pub fn cut(call: &CutCall) -> Outcome<(usize, usize), GroupBuffers> {
    let mut buffers = (call.kinds.clone(), call.hf_mul.clone());
    Outcome {
        answer: cut_into(call, &mut buffers),
        buffers,
    }
}

/// The cut on other buffers than its own.
pub fn cut_into(call: &CutCall, (kinds, hf_mul): &mut GroupBuffers) -> Answer<(usize, usize)> {
    let sides = netbuff::cut(lent(&call.layout), call.group, GroupMut { kinds, hf_mul });
    answer(sides.map(|sides| (sides.bw, sides.bh)))
}

pub fn alike(call: &AlikeCall) -> Outcome<bool, ()> {
    plain(netbuff::alike(filtered(&call.left), filtered(&call.right)))
}

fn filtered(of: &calls::FilteredLayout) -> netbuff::FilteredLayout<'_> {
    netbuff::FilteredLayout {
        layout: lent(&of.layout),
        sigma: &of.sigma,
    }
}

fn lent(layout: &calls::Layout) -> netbuff::Layout<'_> {
    netbuff::Layout {
        sides: sides(layout),
        kinds: &layout.kinds,
        hf_mul: &layout.hf_mul,
    }
}

fn sides(layout: &calls::Layout) -> Sides {
    Sides {
        bw: layout.bw,
        bh: layout.bh,
    }
}

/// A record that holds something, so that what is written beside a refusal shows.
pub const USED_RECORD: BlockContexts = BlockContexts {
    num_block_clusters: Contexts::USED.count,
    lengths: Contexts::USED.lengths,
    lf_thresholds: Contexts::USED.lf,
    qf_thresholds: Contexts::USED.qf,
    block_ctx_map: Contexts::USED.map,
};

pub fn contexts(call: &ContextsCall) -> Outcome<usize, Contexts> {
    let mut record = USED_RECORD;
    let read = contexts_into(call, &mut record);
    Outcome {
        answer: read,
        buffers: Contexts {
            count: record.num_block_clusters,
            lengths: record.lengths,
            lf: record.lf_thresholds,
            qf: record.qf_thresholds,
            map: record.block_ctx_map,
        },
    }
}

/// The context call into a record of the wrapper.
pub fn contexts_into(call: &ContextsCall, record: &mut BlockContexts) -> Answer<usize> {
    let clusters = BlockClusters {
        count: call.count,
        map: &call.map,
    };
    answer(netbuff::block_context(&call.bytes, clusters, record))
}

pub fn order(call: &OrderCall) -> Outcome<Store, ()> {
    plain(Ok(
        netbuff::order(&call.store, call.order, call.channel).to_vec()
    ))
}

pub fn places_fit(store: &Store) -> Outcome<bool, ()> {
    plain(Ok(netbuff::places_fit(store)))
}

pub fn coefficients(call: &CoefficientsCall) -> Outcome<usize, CoefficientBuffers> {
    let mut buffers = call.buffers.clone();
    Outcome {
        answer: coefficients_into(call, &mut buffers),
        buffers,
    }
}

/// The coefficient call on other buffers than its own.
pub fn coefficients_into(
    call: &CoefficientsCall,
    buffers: &mut CoefficientBuffers,
) -> Answer<usize> {
    let contexts = BlockContexts {
        num_block_clusters: call.contexts.count,
        lengths: call.contexts.lengths,
        lf_thresholds: call.contexts.lf,
        qf_thresholds: call.contexts.qf,
        block_ctx_map: call.contexts.map,
    };
    let lf = call.lf.as_ref();
    let input = CoefficientInput {
        group: Group {
            sides: sides(&call.group),
            kinds: &call.group.kinds,
            hf_mul: &call.group.hf_mul,
        },
        contexts: &contexts,
        lf: lf.map(|grids| LfGrids {
            channels: grids.each_ref().map(Vec::as_slice),
        }),
        orders: Orders { store: &call.store },
        presets: Presets {
            count: call.presets,
            cluster_map: &call.cluster_map,
        },
        shift: call.shift,
        bytes: &call.bytes,
        symbols: &call.symbols,
    };
    let output = CoefficientMut {
        grids: buffers.grids.each_mut().map(Vec::as_mut_slice),
        log: &mut buffers.log,
    };
    answer(netbuff::coefficients(&input, output))
}

pub fn census(situation: &Situation) -> Outcome<u32, ()> {
    plain(netbuff::coefficient_context(netbuff::Situation {
        blocks: situation.blocks,
        count: situation.count,
        place: situation.place,
        prev: situation.prev,
    }))
}
