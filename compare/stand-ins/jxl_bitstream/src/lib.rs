//! Stand-in for `jxl_bitstream`, as document 01, Bits, describes it: lent bytes, bits lowest first,
//! each read all or nothing, and only whole reads counted.

use std::fmt;
use std::ops::Add;

/// What the stand-in for the entropy decoder reads and writes during one call.
#[derive(Debug, Default)]
pub struct Coded<'a> {
    pub symbols: &'a [u32],
    pub symbols_read: usize,
    /// Takes the cluster of each symbol that is read by cluster.
    pub log: &'a mut [u8],
    /// Stands for what `read_clusters` would find, and for the decoder's own cluster map.
    pub cluster_count: u32,
    pub cluster_map: &'a [u8],
    /// How many entries `read_clusters` was asked for, if it was called.
    pub clusters_asked: Option<u32>,
}

impl Coded<'_> {
    #[inline]
    pub fn next_symbol(&mut self) -> Option<u32> {
        let symbol = *self.symbols.get(self.symbols_read)?;
        self.symbols_read += 1;
        Some(symbol)
    }

    #[inline]
    pub fn next_logged_symbol(&mut self, cluster: u8) -> Option<u32> {
        let place = self.symbols_read;
        let symbol = self.next_symbol()?;
        self.log[place] = cluster;
        Some(symbol)
    }
}

#[derive(Debug)]
pub struct Bitstream<'a> {
    bytes: &'a [u8],
    bits_read: usize,
    pub coded: Coded<'a>,
}

impl<'a> Bitstream<'a> {
    pub fn new(bytes: &'a [u8]) -> Self {
        Self::with_coded(bytes, Coded::default())
    }

    pub fn with_coded(bytes: &'a [u8], coded: Coded<'a>) -> Self {
        Self {
            bytes,
            bits_read: 0,
            coded,
        }
    }

    pub fn bits_read(&self) -> usize {
        self.bits_read
    }

    pub fn read_bits(&mut self, n: usize) -> BitstreamResult<u32> {
        assert!(n <= 32);
        if n > self.bytes.len() * 8 - self.bits_read {
            return Err(Error::BitsEnd);
        }
        let mut value = 0u64;
        for k in 0..n {
            let place = self.bits_read + k;
            let bit = self.bytes[place / 8] >> (place % 8) & 1;
            value |= u64::from(bit) << k;
        }
        self.bits_read += n;
        Ok(value as u32)
    }

    pub fn read_bool(&mut self) -> BitstreamResult<bool> {
        Ok(self.read_bits(1)? != 0)
    }

    pub fn read_u32(
        &mut self,
        d0: impl Into<U32Specifier>,
        d1: impl Into<U32Specifier>,
        d2: impl Into<U32Specifier>,
        d3: impl Into<U32Specifier>,
    ) -> BitstreamResult<u32> {
        let choice: U32Specifier = match self.read_bits(2)? {
            0 => d0.into(),
            1 => d1.into(),
            2 => d2.into(),
            _ => d3.into(),
        };
        Ok(choice.offset.wrapping_add(self.read_bits(choice.bits)?))
    }
}

/// A field of that many bits.
#[derive(Debug, Copy, Clone)]
pub struct U(pub usize);

/// One of the four choices of a U32; a constant is an offset and no bits.
#[derive(Debug, Copy, Clone)]
pub struct U32Specifier {
    offset: u32,
    bits: usize,
}

impl From<u32> for U32Specifier {
    fn from(offset: u32) -> Self {
        Self { offset, bits: 0 }
    }
}

impl From<U> for U32Specifier {
    fn from(U(bits): U) -> Self {
        Self { offset: 0, bits }
    }
}

impl Add<U> for u32 {
    type Output = U32Specifier;

    fn add(self, U(bits): U) -> U32Specifier {
        U32Specifier { offset: self, bits }
    }
}

/// Even u is u / 2, odd u is -(u + 1) / 2.
#[inline]
pub fn unpack_signed(u: u32) -> i32 {
    let half = (u / 2) as i32;
    if u & 1 == 0 {
        half
    } else {
        !half
    }
}

#[derive(Debug)]
pub enum Error {
    BitsEnd,
    InvalidEnum { name: &'static str, value: u32 },
    ValidationFailed(&'static str),
}

pub type BitstreamResult<T> = Result<T, Error>;

impl Error {
    pub fn unexpected_eof(&self) -> bool {
        matches!(self, Self::BitsEnd)
    }
}

impl fmt::Display for Error {
    fn fmt(&self, f: &mut fmt::Formatter<'_>) -> fmt::Result {
        match self {
            Self::BitsEnd => write!(f, "bits end"),
            Self::InvalidEnum { name, value } => write!(f, "{value} is no {name}"),
            Self::ValidationFailed(text) => write!(f, "{text}"),
        }
    }
}

impl std::error::Error for Error {}
