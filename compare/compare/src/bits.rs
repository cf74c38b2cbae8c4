/// Bits to be lent, lowest first within each byte.
#[derive(Debug, Clone, Default)]
pub struct Bits {
    bits: Vec<bool>,
}

impl Bits {
    pub fn put(mut self, value: u32, n: usize) -> Self {
        self.bits
            .extend((0..n).map(|k| k < 32 && value >> k & 1 != 0));
        self
    }

    /// A selector and the field of its choice.
    pub fn put_u32(self, selector: u32, field: u32, field_bits: usize) -> Self {
        self.put(selector, 2).put(field, field_bits)
    }

    pub fn len(&self) -> usize {
        self.bits.len()
    }

    pub fn is_empty(&self) -> bool {
        self.bits.is_empty()
    }

    /// The bytes that hold the bits, the last one filled up with 0.
    pub fn bytes(&self) -> Vec<u8> {
        let byte = |bits: &[bool]| {
            bits.iter()
                .rev()
                .fold(0, |byte, &bit| byte << 1 | u8::from(bit))
        };
        self.bits.chunks(8).map(byte).collect()
    }
}
