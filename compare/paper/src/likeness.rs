//! The likeness test of two lent layouts (document 01, Layout, "Added by us"; document 02, No. 12).

use calls::{AlikeCall, Answer, FilteredLayout, Layout};

use crate::first_refusal;
use crate::record::{is_layout, kind_sides, lengths_fit, refuse, sides_fit, FIRST_CORNER_KIND};

/// Yes exactly if both have the same varblocks and the same bits of sigma; so layouts without blocks
/// are alike, whatever their sides (document 02, No. 2). Each refusal is tried over both before the
/// next.
pub fn alike(call: &AlikeCall) -> Answer<bool> {
    let both = |check: fn(&FilteredLayout) -> bool| check(&call.left) && check(&call.right);
    refuse(first_refusal([(2, both(|lent| sides_fit(&lent.layout)))]))?;
    refuse(first_refusal([(11, both(all_finite))]))?;
    refuse(first_refusal([(1, both(all_lengths_fit))]))?;
    refuse(first_refusal([(18, both(|lent| is_layout(&lent.layout)))]))?;
    let same_varblocks = varblocks(&call.left.layout) == varblocks(&call.right.layout);
    Ok(same_varblocks && bits(&call.left) == bits(&call.right))
}

/// Every number that is lent, whatever the length.
fn all_finite(lent: &FilteredLayout) -> bool {
    lent.sigma.iter().all(|sigma| sigma.is_finite())
}

fn all_lengths_fit(lent: &FilteredLayout) -> bool {
    lengths_fit(&lent.layout) && lent.sigma.len() == lent.layout.blocks()
}

/// The varblocks of a layout: x, y, transform number and hf_mul of each corner, row by row.
fn varblocks(layout: &Layout) -> Vec<(usize, usize, u8, i32)> {
    let bw = layout.bw;
    let cells = layout.kinds.iter().zip(&layout.hf_mul).enumerate();
    let corners = cells.filter(|(_, (&kind, _))| kind_sides(kind).is_some());
    let varblock =
        |(cell, (&kind, &hf_mul))| (cell % bw, cell / bw, kind - FIRST_CORNER_KIND, hf_mul);
    corners.map(varblock).collect()
}

fn bits(lent: &FilteredLayout) -> Vec<u32> {
    lent.sigma.iter().map(|sigma| sigma.to_bits()).collect()
}

#[cfg(test)]
mod tests {
    use calls::Refusal;

    use super::*;
    use crate::record::rectangles;

    const DCT8: u8 = 2;
    const HORNUSS: u8 = 3;
    const FREE: u8 = 0;

    /// Blocks beside each other, hf_mul 1 at corners.
    fn row(kinds: &[u8], sigma: &[f32]) -> FilteredLayout {
        let hf_mul = kinds.iter().map(|&kind| i32::from(kind >= 2)).collect();
        FilteredLayout {
            layout: Layout {
                bw: kinds.len(),
                bh: 1,
                kinds: kinds.to_vec(),
                hf_mul,
            },
            sigma: sigma.to_vec(),
        }
    }

    /// The answer, or the refusal's number: the same both ways round.
    fn answer(left: &FilteredLayout, right: &FilteredLayout) -> Result<bool, u32> {
        let ask = |left: &FilteredLayout, right: &FilteredLayout| {
            let call = AlikeCall {
                left: left.clone(),
                right: right.clone(),
            };
            alike(&call).map_err(|refusal| {
                assert_eq!(refusal, Refusal::plain(refusal.number));
                refusal.number
            })
        };
        let answer = ask(left, right);
        assert_eq!(ask(right, left), answer);
        answer
    }

    /// Before No. 12 their rectangles alone were compared.
    #[test]
    fn hornuss_is_not_like_dct8_though_it_has_the_same_rectangle() {
        let (dct8, hornuss) = (row(&[DCT8], &[0.0]), row(&[HORNUSS], &[0.0]));
        assert_eq!(rectangles(&dct8.layout), rectangles(&hornuss.layout));
        assert_eq!(answer(&dct8, &hornuss), Ok(false));
        assert_eq!(answer(&dct8, &dct8), Ok(true));
        assert_eq!(answer(&hornuss, &hornuss), Ok(true));
    }

    #[test]
    fn every_bit_of_sigma_and_hf_mul_and_the_sides_count() {
        let plus = row(&[DCT8], &[0.0]);
        assert_eq!(answer(&plus, &row(&[DCT8], &[-0.0])), Ok(false));
        for bit in 0..31 {
            let other = row(&[DCT8], &[f32::from_bits(1 << bit)]);
            assert_eq!(answer(&plus, &other), Ok(false));
            assert_eq!(answer(&other, &other), Ok(true));
        }
        let mut more = plus.clone();
        more.layout.hf_mul[0] += 1;
        assert_eq!(answer(&plus, &more), Ok(false));
        let mut turned = row(&[DCT8, DCT8], &[0.0; 2]);
        (turned.layout.bw, turned.layout.bh) = (1, 2);
        assert_eq!(answer(&turned, &row(&[DCT8, DCT8], &[0.0; 2])), Ok(false));
    }

    #[test]
    fn a_number_that_is_not_finite_comes_behind_the_sides_and_before_all_else() {
        let plain = row(&[DCT8], &[0.0]);
        let surplus = row(&[DCT8], &[0.0, f32::NAN]);
        assert_eq!(answer(&surplus, &surplus), Err(11));
        assert_eq!(answer(&surplus, &plain), Err(11));
        let endless = row(&[DCT8], &[f32::INFINITY]);
        assert_eq!(answer(&row(&[FREE], &[0.0]), &endless), Err(11));
        let wide = row(&[DCT8; 257], &[0.0; 257]);
        assert_eq!(answer(&endless, &wide), Err(2));
        assert_eq!(answer(&plain, &row(&[DCT8], &[0.0, 0.0])), Err(1));
        assert_eq!(answer(&plain, &row(&[DCT8], &[])), Err(1));
        assert_eq!(answer(&plain, &row(&[FREE], &[0.0])), Err(18));
        assert_eq!(answer(&row(&[FREE], &[]), &plain), Err(1));
    }

    /// A layout of these sides, one of them 0.
    fn empty(bw: usize, bh: usize) -> FilteredLayout {
        FilteredLayout {
            layout: Layout {
                bw,
                bh,
                ..Layout::default()
            },
            ..FilteredLayout::default()
        }
    }

    #[test]
    fn layouts_without_blocks_are_alike_whatever_their_sides() {
        let sides = [(0, 0), (0, 1), (3, 0), (0, 5), (0, 256), (256, 0)];
        let one = row(&[DCT8], &[0.0]);
        for (bw, bh) in sides {
            let left = empty(bw, bh);
            for (bw, bh) in sides {
                assert_eq!(answer(&left, &empty(bw, bh)), Ok(true));
            }
            assert_eq!(answer(&left, &one), Ok(false));
        }
    }

    #[test]
    fn layouts_without_blocks_are_judged_as_others() {
        let plain = empty(0, 3);
        assert_eq!(answer(&plain, &empty(0, 257)), Err(2));
        assert_eq!(answer(&plain, &empty(257, 0)), Err(2));
        let with_sigma = |sigma: f32| FilteredLayout {
            sigma: vec![sigma],
            ..empty(0, 3)
        };
        assert_eq!(answer(&plain, &with_sigma(0.0)), Err(1));
        assert_eq!(answer(&plain, &with_sigma(f32::NAN)), Err(11));
        let mut surplus = empty(5, 0);
        surplus.layout.kinds.push(FREE);
        assert_eq!(answer(&plain, &surplus), Err(1));
        assert_eq!(answer(&plain, &row(&[FREE], &[0.0])), Err(18));
    }

    #[test]
    fn every_finite_number_serves() {
        for bits in [0, 1, 0x007f_ffff, 0x477f_e001, 0x7f7f_ffff] {
            for sign in [0, 1 << 31] {
                let one = row(&[DCT8], &[f32::from_bits(sign | bits)]);
                assert_eq!(answer(&one, &one), Ok(true));
            }
        }
        for bits in [0x7f80_0000, 0x7f80_0001, 0x7fc0_0000, 0x7fff_ffff] {
            for sign in [0, 1 << 31] {
                let one = row(&[DCT8], &[f32::from_bits(sign | bits)]);
                assert_eq!(answer(&one, &one), Err(11));
            }
        }
    }
}
