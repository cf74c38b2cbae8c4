use calls::{Contexts, ContextsCall, Outcome};

use super::digits::Digits;
use super::{plainer, shorter, variants, Case};
use crate::bits::Bits;
use crate::expected;
use crate::rng::Rng;

pub struct ContextsCase;

/// All pairs of bytes, and behind them some third and further bytes.
const SHORT_TAILS: [&[u8]; 6] = [&[], &[0], &[1], &[0xff], &[0x80, 0], &[0x21, 0xf3, 0x55]];
const SHORT_MAPS: [usize; 4] = [39, 0, 38, 78];
const COUNTS: [u32; 6] = [1, 15, 16, 0, 17, u32::MAX];

/// Widths of the fields behind the four selectors, of LF and of qf values.
const LF_FIELDS: [usize; 4] = [4, 8, 16, 32];
const QF_FIELDS: [usize; 4] = [2, 3, 5, 8];

impl Case for ContextsCase {
    const NAME: &'static str = "contexts";
    type Input = ContextsCall;
    type Value = usize;
    type Buffers = Contexts;

    fn expected(&self, input: &ContextsCall) -> Outcome<usize, Contexts> {
        expected::contexts(input)
    }

    fn short_count(&self) -> usize {
        (1 << 16) * SHORT_TAILS.len() * SHORT_MAPS.len() * COUNTS.len()
    }

    fn short(&self, number: usize) -> ContextsCall {
        let mut digits = Digits::of(number);
        let (low, high) = (digits.next(256) as u8, digits.next(256) as u8);
        let tail = digits.pick(&SHORT_TAILS);
        ContextsCall {
            bytes: [&[low, high], tail].concat(),
            map: vec![0; digits.pick(&SHORT_MAPS)],
            count: digits.pick(&COUNTS),
        }
    }

    fn random(&self, rng: &mut Rng) -> ContextsCall {
        let lengths = lengths(rng);
        let bsize: usize = lengths.iter().map(|length| length + 1).product();
        let count = rng.between(1, 16) as u32;
        let mut call = ContextsCall {
            bytes: bits(rng, lengths).bytes(),
            count,
            map: (0..39 * bsize.min(80))
                .map(|_| rng.below(count as usize) as u8)
                .collect(),
        };
        match rng.below(12) {
            0 | 1 => call.bytes.truncate(rng.below(call.bytes.len() + 1)),
            2 => call.map.resize(rng.misfit(call.map.len()), 0),
            3 => call.count = rng.pick(&COUNTS),
            4 => {
                let place = rng.below(call.map.len());
                call.map[place] = rng.pick(&[count as u8, count as u8 - 1, 255]);
            }
            5 => call.bytes[0] |= 1,
            6 => call.bytes.extend([0xa5; 3]),
            _ => {}
        }
        call
    }

    fn smaller(&self, input: &ContextsCall) -> Vec<ContextsCall> {
        let mut found = variants(input, shorter(&input.bytes), |i, bytes| i.bytes = bytes);
        found.extend(variants(input, plainer(&input.bytes, 0), |i, bytes| {
            i.bytes = bytes
        }));
        found.extend(variants(input, shorter(&input.map), |i, map| i.map = map));
        found.extend(variants(input, plainer(&input.map, 0), |i, map| {
            i.map = map
        }));
        found
    }
}

/// Four lengths, mostly with a product that fits.
fn lengths(rng: &mut Rng) -> [usize; 4] {
    let any = std::array::from_fn(|_| rng.below(16));
    if rng.once_in(10) {
        return any;
    }
    let mut room = 64;
    let mut lengths = any.map(|length| {
        let length = length.min(room - 1);
        room /= length + 1;
        length
    });
    let turn = rng.below(4);
    lengths.rotate_left(turn);
    lengths
}

/// The bits of a record with lists of the given lengths.
fn bits(rng: &mut Rng, lengths: [usize; 4]) -> Bits {
    let mut bits = Bits::default().put(0, 1);
    for (list, length) in lengths.into_iter().enumerate() {
        let fields = if list < 3 { LF_FIELDS } else { QF_FIELDS };
        bits = bits.put(length as u32, 4);
        for _ in 0..length {
            let selector = rng.below(4);
            bits = bits.put_u32(selector as u32, field(rng), fields[selector]);
        }
    }
    bits
}

/// A field's bits: those around the wrap of 65,808 plus 32 bits among them.
fn field(rng: &mut Rng) -> u32 {
    match rng.below(4) {
        0 => 0u32
            .wrapping_sub(65_808)
            .wrapping_add(rng.below(5) as u32)
            .wrapping_sub(2),
        1 => rng.pick(&[0, u32::MAX, 1]),
        _ => rng.next_u32(),
    }
}
