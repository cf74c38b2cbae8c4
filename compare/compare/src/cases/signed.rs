use calls::Outcome;

use super::{simpler, Case};
use crate::rng::Rng;

/// Signed numbers (document 01, Bits), compared with the stand-in for `jxl_bitstream`.
pub struct SignedCase;

impl Case for SignedCase {
    const NAME: &'static str = "signed";
    type Input = u32;
    type Value = i32;
    type Buffers = ();

    fn expected(&self, &u: &u32) -> Outcome<i32, ()> {
        Outcome {
            answer: Ok(jxl_bitstream::unpack_signed(u)),
            buffers: (),
        }
    }

    fn short_count(&self) -> usize {
        1 << 16
    }

    /// The small and the large numbers.
    fn short(&self, number: usize) -> u32 {
        (number as u32).rotate_right(1)
    }

    fn random(&self, rng: &mut Rng) -> u32 {
        rng.any_u32()
    }

    fn smaller(&self, u: &u32) -> Vec<u32> {
        simpler(u, [u / 2, u.saturating_sub(1)])
    }
}
