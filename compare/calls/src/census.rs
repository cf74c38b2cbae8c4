/// The context census (document 02, No. 9): a situation in which a coefficient is read.
#[derive(Debug, Copy, Clone, PartialEq, Eq)]
pub struct Situation {
    /// Blocks of the varblock.
    pub blocks: u32,
    /// Coefficients that are not 0 and still due, this place's included.
    pub count: u32,
    /// Counted from 0 behind the low-frequency ones.
    pub place: u32,
    /// 1 where the symbol before was not 0, else 0.
    pub prev: u32,
}
