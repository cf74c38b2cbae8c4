//! Plain calls to start from. Buffers hold something other than 0, so that what is left untouched
//! can be told from what is set to 0.

use std::sync::Arc;

use calls::{
    CoefficientBuffers, CoefficientsCall, Contexts, ContextsCall, Layout, LayoutBuffers,
    LayoutCall, OrdersCall, Store, STORE_LENGTH,
};
use jxl_vardct::oracle::{self, Orders};

use crate::bits::Bits;
use crate::expected;

pub const USED_BYTE: u8 = 0xA5;
pub const USED_WORD: i32 = 0x0BAD_CAFE;

pub fn used_buffers(blocks: usize) -> LayoutBuffers {
    LayoutBuffers {
        kinds: vec![USED_BYTE; blocks],
        hf_mul: vec![USED_WORD; blocks],
        sigma: vec![-1.5; blocks],
    }
}

/// A layout call over columns of type and mul: filter off, modes 0, sharpness 0.
pub fn layout(width: u32, height: u32, columns: &[(i32, i32)]) -> LayoutCall {
    let (bw, bh) = paper::grid_sides(width, height, [0; 3]);
    LayoutCall {
        width,
        height,
        modes: [0; 3],
        types: columns.iter().map(|column| column.0).collect(),
        muls: columns.iter().map(|column| column.1).collect(),
        sharpness: vec![0; bw * bh],
        filter: None,
        lookup: [1.0; 8],
        scale: 65_536,
        buffers: used_buffers(bw * bh),
    }
}

/// The group of an accepted layout call of at most 32 blocks each way.
pub fn group(call: &LayoutCall) -> Layout {
    let (bw, bh) = paper::grid_sides(call.width, call.height, call.modes);
    let outcome = expected::layout(call);
    assert!(outcome.answer.is_ok(), "{:?}", outcome.answer);
    Layout {
        bw,
        bh,
        kinds: outcome.buffers.kinds,
        hf_mul: outcome.buffers.hf_mul,
    }
}

/// The record of a context call whose first bit is 1.
pub fn default_contexts() -> Contexts {
    let call = ContextsCall {
        bytes: vec![1],
        count: 0,
        map: Vec::new(),
    };
    expected::contexts(&call).buffers
}

pub fn used_store() -> Store {
    vec![0xA5A5; STORE_LENGTH]
}

/// An order call whose used orders are given by 13 bits.
pub fn orders(used: u32, symbols: &[u32]) -> OrdersCall {
    OrdersCall {
        bytes: Bits::default().put_u32(3, used, 13).bytes(),
        symbols: symbols.to_vec(),
        store: used_store(),
    }
}

/// Orders and the store that they fill.
pub struct OrdersAndStore {
    /// Bit k for order k.
    pub used: u32,
    pub bytes: Vec<u8>,
    pub symbols: Vec<u32>,
    pub orders: Orders,
    pub store: Arc<Store>,
    pub cluster_map: Vec<u8>,
}

impl OrdersAndStore {
    pub fn new(used: u32, symbols: &[u32], cluster_map: Vec<u8>) -> Self {
        let bytes = orders(used, &[]).bytes;
        let orders = oracle::orders(&bytes, symbols, &cluster_map);
        let orders = orders.unwrap_or_else(|refusal| panic!("orders refused: {refusal:?}"));
        let store = Arc::new(orders.store());
        Self {
            used,
            bytes,
            symbols: symbols.to_vec(),
            orders,
            store,
            cluster_map,
        }
    }

    /// A coefficient call over these orders: one preset, no LF grids, shift 0, grids of 0.
    pub fn coefficients(
        &self,
        group: Layout,
        contexts: Contexts,
        symbols: &[u32],
    ) -> CoefficientsCall {
        let blocks = group.blocks();
        let entries = paper::ENTRIES_PER_CLUSTER * contexts.count as usize;
        CoefficientsCall {
            group,
            contexts,
            lf: None,
            store: self.store.clone(),
            presets: 1,
            cluster_map: self.cluster_map[..entries].to_vec(),
            shift: 0,
            bytes: Vec::new(),
            symbols: symbols.to_vec(),
            buffers: CoefficientBuffers {
                grids: std::array::from_fn(|_| vec![0; 64 * blocks]),
                log: vec![USED_BYTE; 192 * blocks],
            },
        }
    }
}
