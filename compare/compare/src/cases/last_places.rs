//! Symbols of one varblock, of which one channel is read up to its last place or nearly so: with
//! count remaining there (document 02, No. 8), used up there, too much for a context before, or too
//! few symbols.

use paper::TRANSFORM_COUNT;

use super::digits::Digits;

const TURNS: usize = 3;
/// Counts of one block, those that 16 refuses among them.
const COUNTS: usize = 67;
const PLACES: usize = 63;
const FILLED: u32 = 2;

/// What stands behind a count of one block.
const TAILS: [fn(usize) -> Vec<u32>; 6] = [
    |_| vec![0; PLACES],
    |_| vec![0; PLACES - 1],
    |_| then(0, PLACES - 1, FILLED, 1),
    // All but one of the count, first or last.
    |count| {
        let filled = count.saturating_sub(1).min(PLACES);
        then(FILLED, filled, 0, PLACES - filled)
    },
    |count| {
        let filled = count.saturating_sub(1).min(PLACES);
        then(0, PLACES - filled, FILLED, filled)
    },
    // All of the count, last.
    |count| {
        let filled = count.min(PLACES);
        then(0, PLACES - filled, FILLED, filled)
    },
];

/// So many of one symbol, then so many of another.
fn then(first: u32, first_count: usize, second: u32, second_count: usize) -> Vec<u32> {
    [vec![first; first_count], vec![second; second_count]].concat()
}

pub const ONE_BLOCK: usize = TURNS * TAILS.len() * COUNTS;

/// The symbols of one block: none in the channels before, then each count with each tail.
pub fn one_block(number: usize) -> Vec<u32> {
    let mut digits = Digits::of(number);
    let before = digits.next(TURNS);
    let tail = digits.pick(&TAILS);
    let count = digits.next(COUNTS);
    [vec![0; before], vec![count as u32], tail(count)].concat()
}

/// Counts of a varblock of so many blocks: one, as many as the last places have contexts for, one
/// more, all.
const COUNTS_OF: [fn(usize) -> usize; 4] = [
    |_| 1,
    |blocks| 32 * blocks,
    |blocks| 32 * blocks + 1,
    |blocks| PLACES * blocks,
];
/// What stands at the last place, and whether it is there.
const LAST: [&[u32]; 3] = [&[], &[0], &[FILLED]];

pub const EACH_TRANSFORM: usize = TRANSFORM_COUNT * TURNS * COUNTS_OF.len() * LAST.len();

/// A transform and the symbols of its varblock: none in the channels before, then a count and zeros
/// up to the last place.
pub fn each_transform(number: usize) -> (u8, Vec<u32>) {
    let mut digits = Digits::of(number);
    let transform = digits.next(TRANSFORM_COUNT) as u8;
    let (wide, high) = paper::transform_sides(transform.into()).expect("a transform number");
    let blocks = wide * high;
    let before = digits.next(TURNS);
    let count = digits.pick(&COUNTS_OF)(blocks);
    let zeros = vec![0; PLACES * blocks - 1];
    let last = digits.pick(&LAST);
    let symbols = [&vec![0; before][..], &[count as u32], &zeros, last].concat();
    (transform, symbols)
}
