use std::fmt;
use std::sync::Arc;

use crate::{Contexts, Layout, Store};

/// The coefficient call (document 01, Coefficients).
#[derive(Clone)]
pub struct CoefficientsCall {
    pub group: Layout,
    pub contexts: Contexts,
    pub lf: Option<[Vec<i32>; 3]>,
    pub store: Arc<Store>,
    pub presets: u32,
    pub cluster_map: Vec<u8>,
    pub shift: u32,
    pub bytes: Vec<u8>,
    pub symbols: Vec<u32>,
    pub buffers: CoefficientBuffers,
}

/// All but the store, and the map's length.
impl fmt::Debug for CoefficientsCall {
    fn fmt(&self, f: &mut fmt::Formatter<'_>) -> fmt::Result {
        f.debug_struct("CoefficientsCall")
            .field("group", &self.group)
            .field("contexts", &self.contexts)
            .field("lf", &self.lf)
            .field("presets", &self.presets)
            .field("cluster map length", &self.cluster_map.len())
            .field("shift", &self.shift)
            .field("bytes", &self.bytes)
            .field("symbols", &self.symbols)
            .field("buffers", &self.buffers)
            .finish_non_exhaustive()
    }
}

#[derive(Debug, Clone, PartialEq, Eq)]
pub struct CoefficientBuffers {
    pub grids: [Vec<i32>; 3],
    pub log: Vec<u8>,
}
