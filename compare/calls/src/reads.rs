/// A single read of the bit reader (document 01, Bits).
#[derive(Debug, Clone)]
pub struct ReadCall {
    pub bytes: Vec<u8>,
    /// The first bit to read has the number 8 * byte + bit.
    pub byte: usize,
    pub bit: u32,
    pub read: ReadKind,
}

#[derive(Debug, Clone, PartialEq)]
pub enum ReadKind {
    Bits(u32),
    /// Offsets and bits of the four choices.
    U32([(u32, u32); 4]),
}
