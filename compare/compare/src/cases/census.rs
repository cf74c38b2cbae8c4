use calls::{Outcome, Situation};
use paper::PLACES;

use super::digits::Digits;
use super::{simpler, variants, Case};
use crate::expected;
use crate::rng::Rng;
use crate::walks::{is_walked_to, Walks};

/// The context census (document 02, No. 9), compared with the numbers that the Rust takes when it
/// reads coefficients; at a first place with the flag that a walk does not have there, with the model.
#[derive(Default)]
pub struct CensusCase {
    walks: Walks,
}

/// Short inputs: blocks, counts and places, flags below these.
const SHORT_BLOCKS: usize = 4;
const SHORT_NUMBERS: usize = 2 * PLACES as usize + 2;
const SHORT_FLAGS: usize = 3;
/// Powers of two up to 1,024.
const POWERS: usize = 11;
/// Blocks that no varblock has.
const NO_BLOCKS: [u32; 9] = [0, 3, 6, 96, 768, 1023, 1025, 1536, 2048];
/// What a situation is made of.
const FIELDS: [fn(&mut Situation) -> &mut u32; 4] = [
    |situation| &mut situation.blocks,
    |situation| &mut situation.count,
    |situation| &mut situation.place,
    |situation| &mut situation.prev,
];

impl Case for CensusCase {
    const NAME: &'static str = "census";
    type Input = Situation;
    type Value = u32;
    type Buffers = ();

    fn expected(&self, situation: &Situation) -> Outcome<u32, ()> {
        Outcome {
            answer: expected::census(situation, &self.walks),
            buffers: (),
        }
    }

    fn by_model(&self, situation: &Situation, expected: &Outcome<u32, ()>) -> Option<bool> {
        Some(expected.answer.is_ok() && !is_walked_to(situation))
    }

    /// All situations of one and of two blocks, and what lies just outside.
    fn short_count(&self) -> usize {
        SHORT_BLOCKS * SHORT_NUMBERS * SHORT_NUMBERS * SHORT_FLAGS
    }

    fn short(&self, number: usize) -> Situation {
        let mut digits = Digits::of(number);
        let mut below = |most| digits.next(most) as u32;
        Situation {
            blocks: below(SHORT_BLOCKS),
            count: below(SHORT_NUMBERS),
            place: below(SHORT_NUMBERS),
            prev: below(SHORT_FLAGS),
        }
    }

    fn random(&self, rng: &mut Rng) -> Situation {
        let blocks = 1 << rng.below(POWERS);
        let mut situation = match rng.below(4) {
            0 => situation(rng, blocks),
            _ => border(rng, blocks),
        };
        if rng.once_in(6) {
            damage(rng, &mut situation);
        }
        situation
    }

    fn smaller(&self, situation: &Situation) -> Vec<Situation> {
        let each = FIELDS.map(|field| {
            let mut copy = *situation;
            let n = *field(&mut copy);
            let smaller = simpler(&n, [0, n / 2, n.saturating_sub(1)]);
            variants(situation, smaller, |situation, n| *field(situation) = n)
        });
        each.concat()
    }
}

/// Any situation of so many blocks, a power of two up to 1,024.
pub fn situation(rng: &mut Rng, blocks: u32) -> Situation {
    let places = (PLACES * blocks) as usize;
    let count = rng.between(1, places);
    Situation {
        blocks,
        count: count as u32,
        place: rng.below(places - count + 1) as u32,
        prev: rng.below(2) as u32,
    }
}

/// A situation where the places end or around the steps of both tables; it may lie just outside.
fn border(rng: &mut Rng, blocks: u32) -> Situation {
    let inside = situation(rng, blocks);
    let (counts, places) = (inside.count / blocks, inside.place / blocks);
    let (count, place) = match rng.below(3) {
        0 => (inside.count, PLACES * blocks - inside.count),
        _ => (blocks * counts + rng.below(2) as u32, blocks * places),
    };
    Situation {
        count: around(rng, count),
        place: around(rng, place),
        ..inside
    }
}

/// The number, one less or one more.
fn around(rng: &mut Rng, number: u32) -> u32 {
    (number + rng.below(3) as u32).saturating_sub(1)
}

/// Changes one number of a situation, or makes the sum of two wrap.
fn damage(rng: &mut Rng, situation: &mut Situation) {
    match rng.below(9) {
        0 | 1 => situation.blocks = rng.pick(&NO_BLOCKS),
        2 => situation.blocks = rng.any_u32(),
        3 => situation.count = 0,
        4 => situation.count = rng.any_u32(),
        5 => situation.place = rng.any_u32(),
        6 => situation.prev = rng.pick(&[2, 3, 256, u32::MAX]),
        _ => wrap(rng, situation),
    }
}

/// Count and place of which one is so large that their sum passes 2^32 and is small again.
fn wrap(rng: &mut Rng, situation: &mut Situation) {
    let small = situation.count.max(1);
    let sum = rng.below(small as usize) as u32;
    let numbers = [small, sum.wrapping_sub(small)];
    let first = rng.below(2);
    (situation.count, situation.place) = (numbers[first], numbers[1 - first]);
}
