/// The layout call (document 01, Layout and filter strength).
#[derive(Debug, Clone)]
pub struct LayoutCall {
    pub width: u32,
    pub height: u32,
    pub modes: [u32; 3],
    pub types: Vec<i32>,
    pub muls: Vec<i32>,
    pub sharpness: Vec<i32>,
    /// The multiplier, if the filter is on.
    pub filter: Option<f32>,
    pub lookup: [f32; 8],
    pub scale: u32,
    pub buffers: LayoutBuffers,
}

/// The buffers that the layout call fills, one place per block.
#[derive(Debug, Clone, Default)]
pub struct LayoutBuffers {
    pub kinds: Vec<u8>,
    pub hf_mul: Vec<i32>,
    pub sigma: Vec<f32>,
}

impl LayoutBuffers {
    pub fn zeros(blocks: usize) -> Self {
        Self {
            kinds: vec![0; blocks],
            hf_mul: vec![0; blocks],
            sigma: vec![0.0; blocks],
        }
    }
}

/// Filter strengths are compared to the bit.
impl PartialEq for LayoutBuffers {
    fn eq(&self, other: &Self) -> bool {
        let bits = |buffers: &Self| -> Vec<u32> {
            buffers.sigma.iter().map(|sigma| sigma.to_bits()).collect()
        };
        self.kinds == other.kinds && self.hf_mul == other.hf_mul && bits(self) == bits(other)
    }
}
