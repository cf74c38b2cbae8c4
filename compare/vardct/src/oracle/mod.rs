//! Document 01's calls, answered by the Rust. Each function takes what lies inside the paper's
//! limits; the checks before work that the Rust lacks are not made here (see the crate `paper`).

mod coefficients;
mod contexts;
mod layout;
mod lf_group;
mod orders;
mod transform;

pub use coefficients::{coefficients, CoefficientsRun};
pub use contexts::{contexts, paper_form, ContextsRead};
pub use layout::{column_count, grid_sides, layout, LayoutRun};
pub use lf_group::LfGroupRun;
pub use orders::{orders, store_after, Orders};
pub use transform::{block_info, transform};

use crate::Error;
use calls::Refusal;
use jxl_bitstream::Bitstream;

/// The refusal that an error of the Rust stands for, with the position that goes with its number.
fn refusal_of(error: &Error, bitstream: &Bitstream) -> Refusal {
    let number = number_of(error);
    match number {
        3 | 14 => Refusal::at(number, bitstream.bits_read(), 0),
        13 | 15..=17 => Refusal::at(number, bitstream.coded.symbols_read, 0),
        _ => {
            let fields = tracing::take_last_error();
            let field = |name| fields.iter().find(|field| field.0 == name);
            let coordinate = |base, own| {
                let found = field(base).or(field(own));
                found.map_or(usize::MAX, |field| field.1 as usize)
            };
            Refusal::at(number, coordinate("base_x", "x"), coordinate("base_y", "y"))
        }
    }
}

fn number_of(error: &Error) -> u32 {
    match error {
        Error::Bitstream(jxl_bitstream::Error::BitsEnd) => 3,
        Error::Bitstream(jxl_bitstream::Error::InvalidEnum { .. }) => 5,
        Error::Bitstream(jxl_bitstream::Error::ValidationFailed(text)) => number_of_text(text),
        Error::Decoder(jxl_coding::Error::InvalidPermutation) => 13,
        Error::Decoder(jxl_coding::Error::SymbolsEnd) => 15,
        Error::Buffer(_) | Error::Modular(_) => panic!("a stand-in was used wrongly: {error}"),
    }
}

fn number_of_text(text: &str) -> u32 {
    match text {
        "BlockInfo doesn't fill LF group" => 4,
        "non-positive HfMul" => 6,
        "varblock is placed across pass group border" => 7,
        "varblocks overlap" => 8,
        "varblock doesn't fit in an LF group" => 9,
        "invalid EPF sharpness value" => 10,
        "selected HF preset out of bounds" => 14,
        "non_zeros too large" => 16,
        "too many zeros in varblock HF coefficient" => 17,
        _ => panic!("an error that no refusal stands for: {text}"),
    }
}
