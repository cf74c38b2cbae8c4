use netbuff_sys as sys;

use crate::{Refusal, Result};

/// A place between two bits: the one with number 8 × byte + bit comes next.
#[derive(Debug, Copy, Clone, Default, PartialEq, Eq)]
pub struct Place {
    /// Whole bytes before it.
    pub byte: usize,
    /// Bits before it that are no whole byte; any number serves.
    pub bit: u32,
}

/// What a read gave, and the place behind it.
#[derive(Debug, Copy, Clone, Default, PartialEq, Eq)]
pub struct Read {
    /// The number read.
    pub value: u32,
    /// Where the next read begins.
    pub next: Place,
}

/// A choice of a U32: an offset, to which so many bits are added. A constant has no bits.
#[derive(Debug, Copy, Clone, Default, PartialEq, Eq)]
pub struct Choice {
    /// The constant, or what the bits are added to, modulo 2^32.
    pub offset: u32,
    /// How many bits are read; more than 32 count as 32.
    pub bits: u32,
}

/// One read of n bits, 0 to 32, lowest first within each byte; a larger n reads 32.
///
/// # Errors
///
/// 3 when the bits end; its position is the number of bits that this read took, 0.
///
/// ```
/// use netbuff::{read_bits, Place, Refusal};
///
/// let bytes = [0b1010_0110, 1];
/// let first = read_bits(&bytes, Place::default(), 3)?;
/// assert_eq!(first.value, 0b110);
/// let second = read_bits(&bytes, first.next, 6)?;
/// assert_eq!(second.value, 0b1_10100);
/// let refused = read_bits(&bytes, second.next, 8).unwrap_err();
/// assert_eq!(refused, Refusal::BitsEnd { bits_read: 0 });
/// # Ok::<(), Refusal>(())
/// ```
pub fn read_bits(bytes: &[u8], at: Place, n: u32) -> Result<Read> {
    let (first, length) = (bytes.as_ptr(), bytes.len());
    read(|out, taken| {
        let Place { byte, bit } = &mut out.next;
        // SAFETY: the bytes and every reference are valid for the call, and nothing is kept.
        unsafe {
            let value = &mut out.value;
            sys::netbuff_read_bits(first, length, at.byte, at.bit, n, value, byte, bit, taken)
        }
    })
}

/// A U32: a selector of two bits, then the choice that it names.
///
/// # Errors
///
/// 3 when the bits end; its position is the number of bits read of this U32: 2 when only the
/// choice's bits are missing, else 0.
///
/// ```
/// use netbuff::{read_u32, Choice, Place, Refusal};
///
/// // 95, 19, 0, or 13 bits: which orders of a pass are permuted.
/// let constant = |offset| Choice { offset, bits: 0 };
/// let choices = [constant(95), constant(19), constant(0), Choice { offset: 0, bits: 13 }];
/// assert_eq!(read_u32(&[1], Place::default(), choices)?.value, 19);
/// let refused = read_u32(&[3], Place::default(), choices).unwrap_err();
/// assert_eq!(refused, Refusal::BitsEnd { bits_read: 2 });
/// # Ok::<(), Refusal>(())
/// ```
pub fn read_u32(bytes: &[u8], at: Place, choices: [Choice; 4]) -> Result<Read> {
    let (first, length) = (bytes.as_ptr(), bytes.len());
    let lent = core::array::from_fn(|k| match choices[k / 2] {
        Choice { offset, .. } if k % 2 == 0 => offset,
        Choice { bits, .. } => bits,
    });
    read(|out, taken| {
        let Place { byte, bit } = &mut out.next;
        // SAFETY: the bytes and every reference are valid for the call, and nothing is kept.
        unsafe {
            let value = &mut out.value;
            sys::netbuff_read_u32(
                first, length, at.byte, at.bit, &lent, value, byte, bit, taken,
            )
        }
    })
}

/// The signed number of a packed one, as coefficients and thresholds are sent: u / 2 where u is
/// even, −(u + 1) / 2 where it is odd. Never refused.
///
/// ```
/// let signed = [0, 1, 2, 3, u32::MAX].map(netbuff::unpack_signed);
/// assert_eq!(signed, [0, -1, 1, -2, i32::MIN]);
/// ```
pub fn unpack_signed(u: u32) -> i32 {
    // SAFETY: numbers only.
    unsafe { sys::netbuff_unpack_signed(u) }
}

fn read(answer: impl FnOnce(&mut Read, &mut u32) -> u32) -> Result<Read> {
    let mut out = Read::default();
    let mut taken = 0;
    match answer(&mut out, &mut taken) {
        0 => Ok(out),
        number => Err(Refusal::of(number, taken as usize, 0)),
    }
}
