//! Comparison of Netbuff's calls with the Rust of jxl-vardct: what each call is expected to answer,
//! and inputs for it.

pub const LEFT_OUT: &str = "live comparison left out: jxl-vardct's Rust is not at hand \
     (../shared/docs/src/src beside the repository, or the folder NETBUFF_JXL_VARDCT)";

#[cfg(live)]
pub mod bits;
#[cfg(live)]
pub mod cases;
#[cfg(live)]
pub mod driver;
#[cfg(live)]
pub mod entries;
#[cfg(live)]
pub mod examples;
#[cfg(live)]
pub mod expected;
#[cfg(live)]
pub mod make;
#[cfg(live)]
pub mod progress;
#[cfg(live)]
pub mod rng;
#[cfg(live)]
pub mod rounds;
#[cfg(live)]
pub mod walks;
