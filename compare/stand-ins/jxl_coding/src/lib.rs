//! Stand-in for `jxl_coding`: symbols and cluster maps are lent (document 01, Block contexts, Orders
//! and Coefficients). They come along with the bitstream.

use std::fmt;
use std::sync::Arc;

use jxl_bitstream::Bitstream;

/// A lent cluster map; its symbols are those of the bitstream at hand.
#[derive(Debug, Clone)]
pub struct Decoder {
    cluster_map: Arc<[u8]>,
}

impl Decoder {
    pub fn parse(bitstream: &mut Bitstream, _num_dist: u32) -> Result<Self> {
        Ok(Self {
            cluster_map: bitstream.coded.cluster_map.into(),
        })
    }

    pub fn cluster_map(&self) -> &[u8] {
        &self.cluster_map
    }

    pub fn begin(&mut self, _bitstream: &mut Bitstream) -> Result<()> {
        Ok(())
    }

    #[inline]
    pub fn read_varint_with_multiplier_clustered(
        &mut self,
        bitstream: &mut Bitstream,
        cluster: u8,
        _dist_multiplier: u32,
    ) -> Result<u32> {
        bitstream
            .coded
            .next_logged_symbol(cluster)
            .ok_or(Error::SymbolsEnd)
    }

    pub fn finalize(&self) -> Result<()> {
        Ok(())
    }
}

/// The lent count and map, whatever they hold; what was asked for is noted.
pub fn read_clusters(bitstream: &mut Bitstream, num_dist: u32) -> Result<(u32, Vec<u8>)> {
    let coded = &mut bitstream.coded;
    coded.clusters_asked = Some(num_dist);
    Ok((coded.cluster_count, coded.cluster_map.to_vec()))
}

/// A length, then that many digits, each taking one of the ascending rest.
pub fn read_permutation(
    bitstream: &mut Bitstream,
    _decoder: &mut Decoder,
    size: u32,
    skip: u32,
) -> Result<Vec<usize>> {
    let mut permutation: Vec<usize> = (0..skip as usize).collect();
    let mut rest: Vec<usize> = (skip as usize..size as usize).collect();
    let length = next_at_most(bitstream, rest.len())?;
    for _ in 0..length {
        let digit = next_at_most(bitstream, rest.len() - 1)?;
        permutation.push(rest.remove(digit));
    }
    permutation.extend(rest);
    Ok(permutation)
}

fn next_at_most(bitstream: &mut Bitstream, most: usize) -> Result<usize> {
    let symbol = bitstream.coded.next_symbol().ok_or(Error::SymbolsEnd)? as usize;
    if symbol > most {
        return Err(Error::InvalidPermutation);
    }
    Ok(symbol)
}

#[derive(Debug)]
pub enum Error {
    SymbolsEnd,
    InvalidPermutation,
}

pub type Result<T> = std::result::Result<T, Error>;

impl Error {
    pub fn unexpected_eof(&self) -> bool {
        matches!(self, Self::SymbolsEnd)
    }
}

impl fmt::Display for Error {
    fn fmt(&self, f: &mut fmt::Formatter<'_>) -> fmt::Result {
        write!(f, "{self:?}")
    }
}

impl std::error::Error for Error {}
