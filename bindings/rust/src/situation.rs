use netbuff_sys as sys;

use crate::refusal::call;
use crate::Result;

/// What the context number of a coefficient goes by. `count` and `place` together are at most
/// 63 × `blocks`.
#[derive(Debug, Copy, Clone, PartialEq, Eq, Hash)]
pub struct Situation {
    /// Of the varblock: a power of two up to 1,024.
    pub blocks: u32,
    /// Coefficients that are not 0 still due, this place's included: at least 1.
    pub count: u32,
    /// From 0, behind the low-frequency ones.
    pub place: u32,
    /// 1 where the symbol before was not 0, else 0. At the first place a reading has 1 where the
    /// count is at most 4 × `blocks`, else 0; here both are taken at every place.
    pub prev: u32,
}

/// The context number of a coefficient, 0 to 457: which of the 458 entries of its block context in
/// the cluster map is its own.
///
/// These 458 begin at 458 × block context + 37 × clusters of the preset's part of the map. The
/// number is 2 × (n + f) + prev, where n is entry (count − 1) / blocks of jxl-vardct's
/// `COEFF_NUM_NONZERO_CONTEXT` and f entry place / blocks of its `COEFF_FREQ_CONTEXT`. So a
/// situation has the number of that of one block whose count is count / blocks, rounded up, and
/// whose place is place / blocks, rounded down. Two situations have the same number exactly if n, f
/// and prev are the same, and each number occurs.
///
/// # Errors
///
/// 11 where blocks is no power of two up to 1,024, count is 0, count + place, which does not wrap,
/// is above 63 × blocks, or prev is above 1.
///
/// ```
/// use netbuff::{coefficient_context, Situation};
///
/// // Two are due in one block; the first place has entry 31 by the count and 0 by the place.
/// let first = Situation { blocks: 1, count: 2, place: 0, prev: 1 };
/// assert_eq!(coefficient_context(first)?, 63);
/// let larger = Situation { blocks: 16, count: 17, place: 15, prev: 1 };
/// assert_eq!(coefficient_context(larger)?, 63);
///
/// let beyond = Situation { place: 62, ..first };
/// assert_eq!(coefficient_context(beyond).unwrap_err().number(), 11);
/// # Ok::<(), netbuff::Refusal>(())
/// ```
pub fn coefficient_context(situation: Situation) -> Result<u32> {
    let Situation {
        blocks,
        count,
        place,
        prev,
    } = situation;
    let mut context = 0;
    // SAFETY: every reference is valid for the call, and nothing is kept.
    call(|x, y| unsafe {
        sys::netbuff_coefficient_context(blocks, count, place, prev, &mut context, x, y)
    })?;
    Ok(context)
}
