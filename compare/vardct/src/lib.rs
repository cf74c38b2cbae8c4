//! The Rust under comparison: the six files of jxl-vardct 0.11.1, unchanged, over stand-ins, and
//! `oracle`, which asks them document 01's calls. Empty where the files are not at hand.

#[cfg(live)]
include!(concat!(env!("OUT_DIR"), "/modules.rs"));

#[cfg(live)]
pub mod oracle;

#[cfg(live)]
pub use {
    dct_select::TransformType,
    error::{Error, Result},
    hf_coeff::{write_hf_coeff, HfCoeffParams},
    hf_metadata::{BlockInfo, HfMetadata, HfMetadataParams},
    hf_pass::{HfPass, HfPassParams},
    lf::HfBlockContext,
};
