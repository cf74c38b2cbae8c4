use calls::{Answer, Outcome, ReadCall, ReadKind, Refusal};
use jxl_bitstream::{Bitstream, BitstreamResult, U};

use super::digits::Digits;
use super::{plainer, shorter, simpler, variants, Case};
use crate::rng::Rng;

/// Reads of the bit reader, one at a time, at any place of the lent bytes; compared with the
/// stand-in for `jxl_bitstream`, which both sides of the other comparisons read with.
pub struct ReaderCase;

/// The value, and the number of the bit behind it.
pub type ReadValue = (u32, usize);

const PATTERNS: [[u8; 6]; 5] = [
    [0x00; 6],
    [0xff; 6],
    [0x55; 6],
    [0x93, 0x5a, 0xc6, 0x01, 0x80, 0x7e],
    [0xe4, 0x1b, 0x4e, 0xb1, 0x27, 0xd8],
];
const KINDS: [ReadKind; 3] = [
    ReadKind::U32([(95, 0), (19, 0), (0, 0), (0, 13)]),
    ReadKind::U32([(0, 4), (16, 8), (272, 16), (65_808, 32)]),
    ReadKind::U32([(0, 2), (4, 3), (12, 5), (44, 8)]),
];
const WIDTHS: usize = 34;
const LENGTHS: usize = 7;
/// Bits up to the next byte and beyond.
const BITS: usize = 10;

impl Case for ReaderCase {
    const NAME: &'static str = "reader";
    type Input = ReadCall;
    type Value = ReadValue;
    type Buffers = ();

    fn expected(&self, input: &ReadCall) -> Outcome<ReadValue, ()> {
        Outcome {
            answer: read(input),
            buffers: (),
        }
    }

    fn short_count(&self) -> usize {
        PATTERNS.len() * (WIDTHS + KINDS.len()) * LENGTHS * LENGTHS * BITS
    }

    fn short(&self, number: usize) -> ReadCall {
        let mut digits = Digits::of(number);
        let read = match digits.next(WIDTHS + KINDS.len()) {
            n if n < WIDTHS => ReadKind::Bits(n as u32),
            kind => KINDS[kind - WIDTHS].clone(),
        };
        ReadCall {
            bytes: digits.pick(&PATTERNS)[..digits.next(LENGTHS)].to_vec(),
            byte: digits.next(LENGTHS),
            bit: digits.next(BITS) as u32,
            read,
        }
    }

    fn random(&self, rng: &mut Rng) -> ReadCall {
        let length = rng.below(40);
        let choices = std::array::from_fn(|_| (rng.any_u32(), rng.below(40) as u32));
        let byte = (length + 1).saturating_sub(rng.below(10));
        ReadCall {
            bytes: rng.bytes(length),
            byte: if rng.once_in(50) { usize::MAX } else { byte },
            bit: if rng.once_in(20) {
                rng.any_u32()
            } else {
                rng.below(20) as u32
            },
            read: match rng.below(3) {
                0 => ReadKind::Bits(rng.below(40) as u32),
                1 => rng.pick(&KINDS),
                _ => ReadKind::U32(choices),
            },
        }
    }

    fn smaller(&self, input: &ReadCall) -> Vec<ReadCall> {
        let bits = simpler(&input.bit, [0, input.bit / 2, input.bit.saturating_sub(1)]);
        let mut found = variants(input, shorter(&input.bytes), |i, bytes| i.bytes = bytes);
        found.extend(variants(input, plainer(&input.bytes, 0), |i, bytes| {
            i.bytes = bytes
        }));
        found.extend(variants(input, simpler(&input.byte, [0]), |i, byte| {
            i.byte = byte
        }));
        found.extend(variants(input, bits, |i, bit| i.bit = bit));
        found
    }
}

fn read(input: &ReadCall) -> Answer<ReadValue> {
    if input.byte > input.bytes.len() {
        return Err(Refusal::at(3, 0, 0));
    }
    let start = 8 * input.byte + input.bit as usize;
    let mut bitstream = Bitstream::new(&input.bytes);
    let skipped = skip(&mut bitstream, start);
    let refused = |bits_read: usize| Refusal::at(3, bits_read.saturating_sub(start), 0);
    let value = skipped.and_then(|()| match &input.read {
        ReadKind::Bits(n) => bitstream.read_bits(width(*n)),
        ReadKind::U32(choices) => {
            let [d0, d1, d2, d3] = choices.map(|(offset, bits)| offset + U(width(bits)));
            bitstream.read_u32(d0, d1, d2, d3)
        }
    });
    match value {
        Ok(value) => Ok((value, bitstream.bits_read())),
        Err(_) => Err(refused(bitstream.bits_read())),
    }
}

/// More than 32 bits at a time are not read.
fn width(bits: u32) -> usize {
    bits.min(32) as usize
}

fn skip(bitstream: &mut Bitstream, bits: usize) -> BitstreamResult<()> {
    (0..bits).try_for_each(|_| bitstream.read_bits(1).map(drop))
}
