use calls::{Contexts, Refusal, LIST_MOST};

use crate::first_refusal;

const BSIZE_MOST: usize = 64;
const COUNT_MOST: u32 = 16;
const SETS: usize = 39;
const QF_MOST: u32 = 300;

/// What the context call refuses once all its bits are read: bsize, map length, count, map bytes.
/// `asked` is the number of map entries, 39 for each of bsize.
pub fn clusters_refused(asked: u32, count: u32, map: &[u8]) -> Option<Refusal> {
    first_refusal([
        (12, asked as usize <= SETS * BSIZE_MOST),
        (1, map.len() == asked as usize),
        (12, (1..=COUNT_MOST).contains(&count)),
        (12, map.iter().all(|&cluster| u32::from(cluster) < count)),
    ])
}

/// Whether a lent record is fit; only the used places are looked at.
pub fn is_fit(record: &Contexts) -> bool {
    let long = |length: u32| length as usize > LIST_MOST;
    if record.lengths.into_iter().any(long) || record.bsize() > BSIZE_MOST {
        return false;
    }
    let (qf, map) = (record.qf_list(), record.used_map());
    (1..=COUNT_MOST).contains(&record.count)
        && qf.iter().all(|value| (1..=QF_MOST).contains(value))
        && map.iter().all(|&cluster| u32::from(cluster) < record.count)
}
