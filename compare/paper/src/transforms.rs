//! What each transform number carries (document 01, Transform).

use calls::{Transform, ORDER_SIZES};

pub const TRANSFORM_COUNT: usize = 27;

/// Width and height of the transforms, in blocks.
const SIDES: [(u8, u8); TRANSFORM_COUNT] = [
    (1, 1),
    (1, 1),
    (1, 1),
    (1, 1),
    (2, 2),
    (4, 4),
    (1, 2),
    (2, 1),
    (1, 4),
    (4, 1),
    (2, 4),
    (4, 2),
    (1, 1),
    (1, 1),
    (1, 1),
    (1, 1),
    (1, 1),
    (1, 1),
    (8, 8),
    (4, 8),
    (8, 4),
    (16, 16),
    (8, 16),
    (16, 8),
    (32, 32),
    (16, 32),
    (32, 16),
];

/// Width and height of a transform's varblocks, in blocks; the whole number counts.
pub fn transform_sides(number: i32) -> Option<(usize, usize)> {
    let &(wide, high) = SIDES.get(usize::try_from(number).ok()?)?;
    Some((usize::from(wide), usize::from(high)))
}

/// Sides, order and turn of a transform. Its order is the first of its size, the longer side taken
/// for the width; of the one-block transforms all but Dct8 have the second, and never turn.
pub fn transform(number: u8) -> Option<Transform> {
    let (wide, high) = transform_sides(number.into())?;
    let size = (8 * wide.max(high), 8 * wide.min(high));
    let first = ORDER_SIZES.iter().position(|&order| order == size)?;
    let is_second = matches!(number, 1..=3 | 12..=17);
    Some(Transform {
        wide,
        high,
        order: first + usize::from(is_second),
        turns: high >= wide && !is_second,
    })
}
