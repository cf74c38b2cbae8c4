//! Lent layouts and groups: the check of refusal 18, the cut.

use calls::{Answer, CutCall, GroupBuffers, Layout, Outcome};

use crate::{first_refusal, transform_sides};

pub(crate) const KIND_FREE: u8 = 0;
pub(crate) const KIND_OCCUPIED: u8 = 1;
pub(crate) const FIRST_CORNER_KIND: u8 = 2;
pub(crate) const GROUP_SIDE: usize = 32;
const LAYOUT_SIDE_MOST: usize = 256;

/// The sides of the rectangle that a kind is the corner of.
pub fn kind_sides(kind: u8) -> Option<(usize, usize)> {
    transform_sides(kind.checked_sub(FIRST_CORNER_KIND)?.into())
}

/// The rectangles of a layout: x, y, width, height and hf_mul of each corner, row by row.
type Rectangles = Vec<(usize, usize, usize, usize, i32)>;

pub(crate) fn rectangles(layout: &Layout) -> Rectangles {
    let bw = layout.bw;
    let corners = layout.kinds.iter().zip(&layout.hf_mul).enumerate();
    corners
        .filter_map(|(cell, (&kind, &hf_mul))| {
            let (w, h) = kind_sides(kind)?;
            Some((cell % bw, cell / bw, w, h, hf_mul))
        })
        .collect()
}

/// Whether kinds and hf_mul, of the lengths that the sides ask for, are what 18 lets pass.
pub fn is_layout(layout: &Layout) -> bool {
    let (bw, bh) = (layout.bw, layout.bh);
    let cells = layout.kinds.iter().zip(&layout.hf_mul);
    let kinds_fit = cells
        .clone()
        .all(|(&kind, &hf_mul)| match kind_sides(kind) {
            Some(_) => hf_mul >= 1,
            None => kind == KIND_OCCUPIED && hf_mul == 0,
        });
    let rectangles = rectangles(layout);
    let placed = rectangles.iter().all(|&(x, y, w, h, _)| {
        let in_square = x % GROUP_SIDE + w <= GROUP_SIDE && y % GROUP_SIDE + h <= GROUP_SIDE;
        in_square && x + w <= bw && y + h <= bh
    });
    kinds_fit && placed && covered_once(&rectangles, bw, bh)
}

/// Whether every cell is in just one of the rectangles, which are all inside the grid.
fn covered_once(rectangles: &Rectangles, bw: usize, bh: usize) -> bool {
    let mut covers = vec![0u32; bw * bh];
    for &(x, y, w, h, _) in rectangles {
        for row in y..y + h {
            for cover in &mut covers[row * bw + x..][..w] {
                *cover += 1;
            }
        }
    }
    covers.iter().all(|&cover| cover == 1)
}

/// The cut; the answer is the group's sides.
pub fn cut(call: &CutCall) -> Outcome<(usize, usize), GroupBuffers> {
    let buffers = (call.kinds.clone(), call.hf_mul.clone());
    match group_of(call) {
        Err(refusal) => Outcome::untouched(refusal, buffers),
        Ok(group) => Outcome {
            answer: Ok((group.bw, group.bh)),
            buffers: (group.kinds, group.hf_mul),
        },
    }
}

/// A layout without blocks has no groups, so that every index is outside.
fn group_of(call: &CutCall) -> Answer<Layout> {
    let layout = &call.layout;
    let (bw, bh) = (layout.bw, layout.bh);
    let across = bw.div_ceil(GROUP_SIDE);
    let groups = across * bh.div_ceil(GROUP_SIDE);
    refuse(first_refusal([
        (2, sides_fit(layout)),
        (2, call.group < groups),
    ]))?;
    let (x0, y0) = (
        call.group % across * GROUP_SIDE,
        call.group / across * GROUP_SIDE,
    );
    let (group_bw, group_bh) = (GROUP_SIDE.min(bw - x0), GROUP_SIDE.min(bh - y0));
    let cells = group_bw * group_bh;
    let outs_fit = call.kinds.len() == cells && call.hf_mul.len() == cells;
    refuse(first_refusal([(1, lengths_fit(layout) && outs_fit)]))?;
    refuse(first_refusal([(18, is_layout(layout))]))?;
    let sources = (0..group_bh).flat_map(|y| {
        let row = (y0 + y) * bw + x0;
        row..row + group_bw
    });
    Ok(Layout {
        bw: group_bw,
        bh: group_bh,
        kinds: sources.clone().map(|cell| layout.kinds[cell]).collect(),
        hf_mul: sources.map(|cell| layout.hf_mul[cell]).collect(),
    })
}

pub(crate) fn refuse(refusal: Option<calls::Refusal>) -> Answer<()> {
    refusal.map_or(Ok(()), Err)
}

/// A side of 0 fits: the layout then has no blocks (document 02, No. 2).
pub(crate) fn sides_fit(layout: &Layout) -> bool {
    let sides = [layout.bw, layout.bh];
    sides.iter().all(|&side| side <= LAYOUT_SIDE_MOST)
}

pub(crate) fn lengths_fit(layout: &Layout) -> bool {
    let cells = layout.blocks();
    layout.kinds.len() == cells && layout.hf_mul.len() == cells
}

#[cfg(test)]
mod tests {
    use calls::Refusal;

    use super::*;

    /// The cut of a layout of Dct8 with buffers of so many blocks.
    fn answer(bw: usize, bh: usize, group: usize, cells: usize) -> Answer<(usize, usize)> {
        let blocks = bw * bh;
        let call = CutCall {
            layout: Layout {
                bw,
                bh,
                kinds: vec![FIRST_CORNER_KIND; blocks],
                hf_mul: vec![1; blocks],
            },
            group,
            kinds: vec![0; cells],
            hf_mul: vec![0; cells],
        };
        let outcome = cut(&call);
        assert!(outcome.answer.is_ok() || outcome.buffers == (call.kinds, call.hf_mul));
        outcome.answer
    }

    #[test]
    fn every_index_of_a_layout_without_blocks_is_outside() {
        let outside = Err(Refusal::plain(2));
        for side in 0..=LAYOUT_SIDE_MOST + 1 {
            for group in (0..=64).chain([usize::MAX]) {
                assert_eq!(answer(0, side, group, 0), outside);
                assert_eq!(answer(side, 0, group, 1), outside);
            }
        }
        assert_eq!(answer(1, 1, 0, 1), Ok((1, 1)));
        assert_eq!(answer(1, 1, 1, 1), outside);
        assert_eq!(answer(256, 256, 63, 1024), Ok((32, 32)));
        assert_eq!(answer(256, 256, 64, 1024), outside);
    }

    #[test]
    fn a_layout_without_blocks_is_one() {
        assert!(is_layout(&Layout::default()));
    }
}
