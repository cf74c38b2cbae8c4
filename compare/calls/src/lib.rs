//! What goes into each call of the papers and what comes out, as plain owned data: shared by the Rust
//! under comparison, the model of the papers, the recorder and the comparison.

mod census;
mod coefficients;
mod columns;
mod contexts;
mod groups;
mod layout;
mod lf_group;
mod orders;
mod reads;

pub use census::Situation;
pub use coefficients::{CoefficientBuffers, CoefficientsCall};
pub use columns::{ColumnCount, ColumnCountCall};
pub use contexts::{Contexts, ContextsCall, LIST_MOST, MAP_MOST};
pub use groups::{AlikeCall, CutCall, FilteredLayout, GroupBuffers, Layout};
pub use layout::{LayoutBuffers, LayoutCall};
pub use lf_group::{LfGroupCall, LfGroupOutput, PassGroup};
pub use orders::{
    list_length, list_start, OrderCall, OrdersCall, Store, LIST_COUNT, ORDER_COUNT, ORDER_SIZES,
    STORE_LENGTH,
};

pub use reads::{ReadCall, ReadKind};

/// A refusal's number and position.
#[derive(Debug, Copy, Clone, PartialEq, Eq)]
pub struct Refusal {
    pub number: u32,
    pub x: usize,
    pub y: usize,
}

impl Refusal {
    pub fn at(number: u32, x: usize, y: usize) -> Self {
        Self { number, x, y }
    }

    /// A refusal whose position is 0, 0.
    pub fn plain(number: u32) -> Self {
        Self::at(number, 0, 0)
    }
}

pub type Answer<T> = Result<T, Refusal>;

/// A call's answer and the final contents of the memory lent to it for writing.
#[derive(Debug, Clone, PartialEq)]
pub struct Outcome<T, B> {
    pub answer: Answer<T>,
    pub buffers: B,
}

impl<T, B> Outcome<T, B> {
    /// A refusal that leaves the lent memory as it is.
    pub fn untouched(refusal: Refusal, buffers: B) -> Self {
        Self {
            answer: Err(refusal),
            buffers,
        }
    }
}

/// What a transform number carries.
#[derive(Debug, Copy, Clone, PartialEq, Eq)]
pub struct Transform {
    /// Width and height in blocks.
    pub wide: usize,
    pub high: usize,
    pub order: usize,
    pub turns: bool,
}
