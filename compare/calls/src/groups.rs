/// A lent layout or group: sides in blocks, kinds and hf_mul row by row.
#[derive(Debug, Clone, Default, PartialEq, Eq)]
pub struct Layout {
    pub bw: usize,
    pub bh: usize,
    pub kinds: Vec<u8>,
    pub hf_mul: Vec<i32>,
}

impl Layout {
    pub fn blocks(&self) -> usize {
        self.bw.saturating_mul(self.bh)
    }
}

/// The cut (document 01, Layout, "Added by us").
#[derive(Debug, Clone)]
pub struct CutCall {
    pub layout: Layout,
    pub group: usize,
    pub kinds: Vec<u8>,
    pub hf_mul: Vec<i32>,
}

/// The buffers that the cut fills: kinds and hf_mul.
pub type GroupBuffers = (Vec<u8>, Vec<i32>);

/// A lent layout with its filter strengths, row by row.
#[derive(Debug, Clone, Default)]
pub struct FilteredLayout {
    pub layout: Layout,
    pub sigma: Vec<f32>,
}

/// The likeness test (document 01, Layout, "Added by us"; document 02, No. 12).
#[derive(Debug, Clone)]
pub struct AlikeCall {
    pub left: FilteredLayout,
    pub right: FilteredLayout,
}
