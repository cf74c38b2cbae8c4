use calls::{Outcome, Transform};

use super::{simpler, Case};
use crate::expected;
use crate::rng::Rng;

pub struct TransformCase;

impl Case for TransformCase {
    const NAME: &'static str = "transform";
    type Input = u32;
    type Value = Transform;
    type Buffers = ();

    fn expected(&self, &number: &u32) -> Outcome<Transform, ()> {
        Outcome {
            answer: expected::transform(number),
            buffers: (),
        }
    }

    fn short_count(&self) -> usize {
        1 << 16
    }

    fn short(&self, number: usize) -> u32 {
        number as u32
    }

    fn random(&self, rng: &mut Rng) -> u32 {
        rng.any_u32()
    }

    fn smaller(&self, &number: &u32) -> Vec<u32> {
        simpler(&number, [number / 2, number.saturating_sub(1)])
    }
}
