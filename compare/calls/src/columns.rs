/// The column count call (document 01, Layout and filter strength).
#[derive(Debug, Clone)]
pub struct ColumnCountCall {
    pub bytes: Vec<u8>,
    pub width: u32,
    pub height: u32,
    pub modes: [u32; 3],
}

#[derive(Debug, Copy, Clone, PartialEq, Eq)]
pub struct ColumnCount {
    pub count: u32,
    pub bits_read: usize,
}
