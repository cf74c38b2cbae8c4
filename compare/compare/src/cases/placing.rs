//! Varblocks placed at random so that they fill a grid, as columns and as kinds.

use calls::Layout;

use crate::rng::Rng;

/// Transform numbers, the larger ones seldom, so that they are not crowded out and do not crowd.
const COMMON: [u8; 12] = [0, 1, 2, 3, 6, 7, 12, 13, 14, 15, 16, 17];
const LARGER: [u8; 17] = [4, 5, 8, 9, 10, 11, 18, 19, 20, 21, 22, 23, 24, 25, 26, 6, 7];

/// A filled grid: the columns that fill it, and what they fill it with.
pub struct Filled {
    /// Type and mul of each column, in the order in which they are taken.
    pub columns: Vec<(i32, i32)>,
    pub layout: Layout,
}

/// Fills a grid of the given sides; `favoured` is tried first at each free block.
pub fn fill(rng: &mut Rng, bw: usize, bh: usize, favoured: Option<u8>) -> Filled {
    let mut columns = Vec::new();
    let mut kinds = vec![0u8; bw * bh];
    let mut hf_mul = vec![0i32; bw * bh];
    let larger_once_in = rng.pick(&[2, 4, 16, 1000]);
    for cell in 0..bw * bh {
        if kinds[cell] != 0 {
            continue;
        }
        let (x, y) = (cell % bw, cell / bw);
        let fits = |&transform: &u8| free_at(&kinds, bw, bh, x, y, transform);
        let wished = match favoured {
            Some(transform) if !rng.once_in(4) => transform,
            _ if rng.once_in(larger_once_in) => rng.pick(&LARGER),
            _ => rng.pick(&COMMON),
        };
        let transform = Some(wished).filter(fits).unwrap_or(rng.pick(&COMMON[..4]));
        let mul = any_mul(rng);
        let (w, h) = sides(transform);
        for row in y..y + h {
            kinds[row * bw + x..][..w].fill(1);
        }
        kinds[cell] = 2 + transform;
        hf_mul[cell] = mul + 1;
        columns.push((i32::from(transform), mul));
    }
    Filled {
        columns,
        layout: Layout {
            bw,
            bh,
            kinds,
            hf_mul,
        },
    }
}

/// A group that is one varblock.
pub fn single(transform: u8) -> Layout {
    let (bw, bh) = sides(transform);
    let mut kinds = vec![1; bw * bh];
    let mut hf_mul = vec![0; bw * bh];
    (kinds[0], hf_mul[0]) = (2 + transform, 1);
    Layout {
        bw,
        bh,
        kinds,
        hf_mul,
    }
}

fn sides(transform: u8) -> (usize, usize) {
    paper::transform_sides(transform.into()).expect("a transform number")
}

fn free_at(kinds: &[u8], bw: usize, bh: usize, x: usize, y: usize, transform: u8) -> bool {
    let (w, h) = sides(transform);
    let inside = x % 32 + w <= 32 && y % 32 + h <= 32 && x + w <= bw && y + h <= bh;
    inside && (y..y + h).all(|row| kinds[row * bw + x..][..w].iter().all(|&kind| kind == 0))
}

/// A mul that is accepted: mostly small, with those at which f32 rounds among them.
fn any_mul(rng: &mut Rng) -> i32 {
    match rng.below(8) {
        0 => rng.pick(&[
            0,
            299,
            300,
            16_777_215,
            16_777_216,
            16_777_218,
            i32::MAX - 1,
        ]),
        1 => (rng.next_u32() >> 1) as i32 & !1,
        _ => rng.below(400) as i32,
    }
}

/// Changes single cells of a layout, so that most are none any more.
pub fn damage(rng: &mut Rng, layout: &mut Layout) {
    for _ in 0..rng.between(1, 2) {
        let cell = rng.below(layout.kinds.len().max(1));
        let lists = (layout.kinds.get_mut(cell), layout.hf_mul.get_mut(cell));
        let (Some(kind), Some(hf_mul)) = lists else {
            return;
        };
        match rng.below(3) {
            0 => *kind = rng.below(31) as u8,
            1 => *kind = rng.pick(&[0, 1, 2, 28, 29, 255]),
            _ => *hf_mul = rng.pick(&[0, 1, -1, i32::MIN, i32::MAX, 2]),
        }
    }
}
