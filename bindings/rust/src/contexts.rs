use netbuff_sys as sys;

use crate::refusal::call;
use crate::{read_bits, read_u32, Choice, Place, Refusal, Result};

/// The block contexts of a frame; places that are not used are 0.
#[derive(Debug, Clone, PartialEq, Eq)]
pub struct BlockContexts {
    /// How many clusters of blocks there are, 1 to 16.
    pub num_block_clusters: u32,
    /// Lengths of the LF lists of channels 0, 1, 2, then of the qf list, 0 to 15 each.
    pub lengths: [u32; 4],
    /// The LF thresholds of channel c from 15 × c on.
    pub lf_thresholds: [i32; 45],
    /// 1 to 300 each.
    pub qf_thresholds: [u32; 15],
    /// The cluster of each block context, 39 for each of bsize; bsize is the product of the four
    /// lengths, each plus 1, and at most 64.
    pub block_ctx_map: [u8; 2496],
}

impl BlockContexts {
    /// No contexts yet: memory for [`block_context`].
    pub const ZERO: Self = Self {
        num_block_clusters: 0,
        lengths: [0; 4],
        lf_thresholds: [0; 45],
        qf_thresholds: [0; 15],
        block_ctx_map: [0; 2496],
    };

    /// The contexts of a frame whose first bit is 1: 15 clusters, no thresholds.
    ///
    /// ```
    /// let contexts = netbuff::BlockContexts::standard();
    /// assert_eq!((contexts.num_block_clusters, contexts.lengths), (15, [0; 4]));
    /// ```
    pub fn standard() -> Self {
        let mut record = Self::ZERO;
        let read = block_context(&[1], BlockClusters::NONE, &mut record);
        read.expect("a first bit that is 1 is accepted");
        record
    }
}

/// What takes the place of `read_clusters`: how many clusters there are, 1 to 16, and the cluster
/// of each block context. Not looked at where the first bit is 1.
#[derive(Debug, Copy, Clone)]
pub struct BlockClusters<'a> {
    /// 1 to 16.
    pub count: u32,
    /// 39 bytes for each of bsize, all below the count.
    pub map: &'a [u8],
}

impl BlockClusters<'_> {
    /// For bytes whose first bit is 1.
    pub const NONE: Self = BlockClusters { count: 0, map: &[] };
}

/// What a look at the lists of thresholds tells.
#[derive(Debug, Copy, Clone, Default, PartialEq, Eq)]
pub struct ContextScan {
    /// How long the map is that [`block_context`] has to be lent; 0 for default contexts.
    pub map_length: usize,
    /// How many bits come before those of the map.
    pub bits_read: usize,
}

const fn choices(of: [(u32, u32); 4]) -> [Choice; 4] {
    let [a, b, c, d] = of;
    const fn choice((offset, bits): (u32, u32)) -> Choice {
        Choice { offset, bits }
    }
    [choice(a), choice(b), choice(c), choice(d)]
}

const LF: [Choice; 4] = choices([(0, 4), (16, 8), (272, 16), (65808, 32)]);
const QF: [Choice; 4] = choices([(0, 2), (4, 3), (12, 5), (44, 8)]);

/// Walks over the lists of thresholds that contexts begin with, to tell how long the map is and
/// where its own bits begin: so that it can be decoded, and lent to [`block_context`].
///
/// # Errors
///
/// 3, with the bits read.
///
/// ```
/// use netbuff::{block_context, scan_contexts, BlockClusters, BlockContexts};
///
/// // First bit 0; channel 0 has one threshold (length 1, selector 0, 4 bits), the others none.
/// let bytes = [0b0000_0010, 0, 0];
/// let scan = scan_contexts(&bytes)?;
/// assert_eq!((scan.map_length, scan.bits_read), (39 * 2, 23));
///
/// let clusters = BlockClusters { count: 1, map: &vec![0; scan.map_length] };
/// let mut record = BlockContexts::ZERO;
/// assert_eq!(block_context(&bytes, clusters, &mut record)?, scan.bits_read);
/// # Ok::<(), netbuff::Refusal>(())
/// ```
pub fn scan_contexts(bytes: &[u8]) -> Result<ContextScan> {
    let mut place = Place::default();
    let taken = |place: Place| 8 * place.byte + place.bit as usize;
    let behind = |place: Place, refused: Refusal| Refusal::BitsEnd {
        bits_read: taken(place) + refused.position().0,
    };
    let bits = |place: &mut Place, n| -> Result<u32> {
        let read = read_bits(bytes, *place, n).map_err(|refused| behind(*place, refused))?;
        *place = read.next;
        Ok(read.value)
    };
    if bits(&mut place, 1)? == 1 {
        return Ok(ContextScan {
            map_length: 0,
            bits_read: 1,
        });
    }
    let mut map_length = 39;
    for choices in [LF, LF, LF, QF] {
        let length = bits(&mut place, 4)?;
        map_length *= length as usize + 1;
        for _ in 0..length {
            let read = read_u32(bytes, place, choices);
            place = read.map_err(|refused| behind(place, refused))?.next;
        }
    }
    Ok(ContextScan {
        map_length,
        bits_read: taken(place),
    })
}

/// Reads a context record; the answer is the number of bits read. [`scan_contexts`] tells the
/// length of the map beforehand.
///
/// # Errors
///
/// 3, 12 (bsize above 64), 1 (the map's length), 12 (the count, a byte of the map); the record stays
/// as it was.
///
/// ```
/// use netbuff::{block_context, BlockClusters, BlockContexts};
///
/// let mut record = BlockContexts::ZERO;
/// // First bit 0, four lists without thresholds: bsize is 1.
/// let clusters = BlockClusters { count: 2, map: &[1; 39] };
/// assert_eq!(block_context(&[0, 0, 0], clusters, &mut record)?, 17);
/// assert_eq!((record.num_block_clusters, record.block_ctx_map[38]), (2, 1));
///
/// let clusters = BlockClusters { count: 1, map: &[1; 39] };
/// assert_eq!(block_context(&[0, 0, 0], clusters, &mut record).unwrap_err().number(), 12);
/// # Ok::<(), netbuff::Refusal>(())
/// ```
pub fn block_context(
    bytes: &[u8],
    clusters: BlockClusters,
    record: &mut BlockContexts,
) -> Result<usize> {
    let mut bits_read = 0;
    // SAFETY: the lists and every reference are valid for the call, the record is lent to nobody
    // else, and nothing is kept.
    call(|x, y| unsafe {
        sys::netbuff_block_context(
            bytes.as_ptr(),
            bytes.len(),
            clusters.count,
            clusters.map.as_ptr(),
            clusters.map.len(),
            &mut record.num_block_clusters,
            &mut record.lengths,
            &mut record.lf_thresholds,
            &mut record.qf_thresholds,
            &mut record.block_ctx_map,
            &mut bits_read,
            x,
            y,
        )
    })?;
    Ok(bits_read)
}
