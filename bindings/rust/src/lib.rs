//! The varblock part of a JPEG XL decoder: block layout and filter strengths, block contexts,
//! coefficient orders and the placement of coefficients, by safe calls of a library whose every
//! function is proved against its contract.
//!
//! Every call answers every input with a result or one numbered [`Refusal`]. Memory is lent, of
//! whatever length: a call judges the lengths itself, and none of them panics, allocates or keeps
//! anything. There is no state behind the calls, so they may be made from any number of threads; a
//! call takes less than 16 KiB of stack. Entropy decoding is left to the caller: where the format
//! has coded numbers, a call takes *symbols*, numbers of 32 bits that are already decoded.
//!
//! # Words
//!
//! | Word | Meaning |
//! |--|--|
//! | block | 8 × 8 pixels |
//! | LF group | up to 2,048 × 2,048 pixels, a grid of up to 256 × 256 blocks |
//! | pass group | a 32 × 32 block square of it, cut at the edges |
//! | empty | of a group or layout: its width or height is 0, so it has no blocks; each call says what it then does |
//! | column | a transform number and a mul, as a scan sends them |
//! | varblock | the rectangle of blocks that one column covers; its corner is the block at its upper left |
//! | hf_mul | mul + 1, of a varblock |
//! | sigma | a block's filter strength |
//! | kind | of a block: 0 free, 1 occupied, 2 + transform number at a corner |
//! | channel | 0, 1, 2: X, Y, B of an XYB frame, Cb, Y, Cr of a YCbCr frame; coefficients of channel 1 are read first, then 0, then 2 |
//! | cell | a place of a grid of coefficients; a group of bw × bh blocks has rows of 8 × bw cells |
//! | order | one of 13, each with a list of places for each channel that says where the coefficients of a varblock go |
//! | cluster | the number of a distribution; the log of a reading holds that of each symbol |
//!
//! # The path of a scan
//!
//! | | Call | With memory of its own |
//! |--|--|--|
//! | 1 | [`column_count`]: how many columns an LF group has | |
//! | 2 | [`layout()`]: columns to varblocks and filter strengths | [`LayoutBuf::read`] |
//! | 3 | [`cut`]: a pass group out of the layout | [`Layout::cut`] |
//! | 4 | [`block_context`]: the block contexts of the frame; [`scan_contexts`] for the length of its map | |
//! | 5 | [`orders()`]: the orders of the pass | [`OrdersBuf::read`] |
//! | 6 | [`coefficients`]: symbols to coefficients, added to three grids | [`GridsBuf`] |
//!
//! Beside them [`transform()`] looks a transform number up, [`alike`] compares two layouts with their
//! filter strengths, [`order()`] and [`places_fit`] look into a store of orders,
//! [`coefficient_context`] tells the context number of a coefficient, [`version()`] the library's
//! version, [`read_bits`], [`read_u32`] and [`unpack_signed`] read single numbers. Every call that is
//! lent bytes, those three aside, begins at their first bit, and bits come lowest first within each
//! byte.
//!
//! ```
//! use netbuff::*;
//!
//! // 16 x 16 pixels, three columns: a Dct16x8 and two Dct8; the filter is off.
//! let columns = Columns { types: &[6, 0, 0], muls: &[4, 0, 2] };
//! let layout = LayoutBuf::read(&LayoutInput::unfiltered(LfGroup::new(16, 16), columns, &[0; 4]))?;
//! let group = layout.layout().cut(0)?;
//!
//! let contexts = BlockContexts::standard();
//! let orders = OrdersBuf::natural();
//! let cluster_map = vec![0; Presets::map_length(&contexts, 1)];
//! let input = CoefficientInput {
//!     group: group.group(),
//!     contexts: &contexts,
//!     lf: None,
//!     orders: orders.orders(),
//!     presets: Presets { count: 1, cluster_map: &cluster_map },
//!     shift: 0,
//!     bytes: &[],
//!     // Channel 1 of the first varblock: a count of 1, then -2. All other counts are 0.
//!     symbols: &[1, 3, 0, 0, 0, 0, 0, 0, 0, 0],
//! };
//! let mut grids = GridsBuf::zero(group.sides);
//! let mut log = vec![0; group.sides.log_length()];
//! assert_eq!(coefficients(&input, grids.lend(&mut log))?, 10);
//! assert_eq!(grids.at(1, 1, 0), -2);
//! # Ok::<(), Refusal>(())
//! ```
//!
//! # Refusals
//!
//! | Number | [`Refusal`] | Position |
//! |--|--|--|
//! | 1 | [`Length`](Refusal::Length) | 0, 0 |
//! | 2 | [`Size`](Refusal::Size) | 0, 0 |
//! | 3 | [`BitsEnd`](Refusal::BitsEnd) | bits read, 0 |
//! | 4 | [`ColumnsEnd`](Refusal::ColumnsEnd) | x, y of the free block |
//! | 5 | [`Transform`](Refusal::Transform) | x, y of the free block |
//! | 6 | [`HfMul`](Refusal::HfMul) | x, y of the free block |
//! | 7 | [`Border`](Refusal::Border) | x, y of the free block |
//! | 8 | [`Overlap`](Refusal::Overlap) | x, y of the free block |
//! | 9 | [`Outside`](Refusal::Outside) | x, y of the free block |
//! | 10 | [`Sharpness`](Refusal::Sharpness) | x, y of the free block |
//! | 11 | [`Parameter`](Refusal::Parameter) | 0, 0 |
//! | 12 | [`Context`](Refusal::Context) | 0, 0 |
//! | 13 | [`Order`](Refusal::Order), [`StoredPlace`](Refusal::StoredPlace) | symbols read, 0; 0, 0 |
//! | 14 | [`Preset`](Refusal::Preset) | bits read, 0 |
//! | 15 | [`SymbolsEnd`](Refusal::SymbolsEnd) | symbols read, 0 |
//! | 16 | [`Count`](Refusal::Count) | symbols read, 0 |
//! | 17 | [`CoefficientContext`](Refusal::CoefficientContext) | symbols read, 0 |
//! | 18 | [`Layout`](Refusal::Layout) | 0, 0 |
//! | 24 | [`CountRemaining`](Refusal::CountRemaining) | symbols read, 0 |
//!
//! Where several apply, the one that a call names first under *Errors* is given.
//!
//! # Linking
//!
//! The library is `libnetbuff.a`, machine code for Linux on x86-64. It is looked for in the folder
//! that `NETBUFF_LIB_DIR` names when the crate is built, or else in `target/staticlib` of the
//! repository, where `.ci/archive` writes it.
//!
//! # Features
//!
//! Without features the crate is `no_std` and lends memory alone. `alloc` adds the types that own
//! their memory ([`LayoutBuf`], [`GroupBuf`], [`OrdersBuf`], [`GridsBuf`]), `std` (on by default)
//! also a conversion of [`Refusal`] into [`std::io::Error`].

#![cfg_attr(not(feature = "std"), no_std)]
#![deny(missing_docs)]
#![deny(unsafe_op_in_unsafe_fn)]

#[cfg(feature = "alloc")]
extern crate alloc;

mod bits;
mod coefficients;
mod contexts;
mod layout;
mod orders;
mod record;
mod refusal;
mod situation;
mod transform;
mod version;

pub use bits::{read_bits, read_u32, unpack_signed, Choice, Place, Read};
pub use coefficients::{coefficients, CoefficientInput, CoefficientMut, LfGrids, Presets};
pub use contexts::{block_context, scan_contexts, BlockClusters, BlockContexts, ContextScan};
pub use layout::{
    column_count, layout, ColumnCount, Columns, Filter, LayoutInput, LayoutMut, LfGroup,
};
pub use orders::{order, orders, places_fit, Orders, STORE_LENGTH};
pub use record::{alike, cut, FilteredLayout, Group, GroupMut, Layout, Sides, Varblock};
pub use refusal::{Refusal, Result};
pub use situation::{coefficient_context, Situation};
pub use transform::{transform, Transform, TransformType};
pub use version::{version, Version, VERSION};

#[cfg(feature = "alloc")]
pub use coefficients::GridsBuf;
#[cfg(feature = "alloc")]
pub use layout::LayoutBuf;
#[cfg(feature = "alloc")]
pub use orders::OrdersBuf;
#[cfg(feature = "alloc")]
pub use record::GroupBuf;
