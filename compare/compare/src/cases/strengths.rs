//! Filter strengths that are lent to the likeness test: finite numbers and others, by their bits.

use crate::rng::Rng;

const FINITE: [u32; 12] = [
    0x0000_0000, // 0
    0x8000_0000, // -0
    0x0000_0001, // the smallest subnormal
    0x8000_0001,
    0x007f_ffff, // the largest subnormal
    0x0080_0000, // the smallest normal number
    0x3f80_0000, // 1
    0x3f80_0001, // the next above 1
    0x477f_e001, // the next above 65,504
    0xc77f_e001,
    0x7f7f_ffff, // the largest finite number
    0xff7f_ffff,
];
const NOT_FINITE: [u32; 9] = [
    0x7f80_0000, // infinity
    0xff80_0000,
    0x7fc0_0000, // quiet NaNs
    0xffc0_0000,
    0x7fff_ffff,
    0xffff_ffff,
    0x7f80_0001, // NaNs that signal
    0xff80_0001,
    0x7fbf_ffff,
];
const EXPONENT: u32 = 0x7f80_0000;

/// One of each kind, for short lists.
pub const EACH: [u32; 12] = [
    0x0000_0000,
    0x8000_0000,
    0x0000_0001,
    0x807f_ffff,
    0x0080_0000,
    0x3f80_0000,
    0x477f_e001,
    0xff7f_ffff,
    0x7f80_0000,
    0xff80_0000,
    0x7fc0_0000,
    0xff80_0001,
];

pub fn any_finite(rng: &mut Rng) -> f32 {
    if rng.once_in(2) {
        return f32::from_bits(rng.pick(&FINITE));
    }
    let bits = rng.next_u32();
    let outside = bits & EXPONENT == EXPONENT;
    f32::from_bits(if outside { bits ^ 0x4000_0000 } else { bits })
}

pub fn any_not_finite(rng: &mut Rng) -> f32 {
    let bits = match rng.below(4) {
        0 => rng.next_u32() | EXPONENT,
        _ => rng.pick(&NOT_FINITE),
    };
    f32::from_bits(bits)
}
