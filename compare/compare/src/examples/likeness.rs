use calls::{AlikeCall, FilteredLayout, Layout};

use super::{row, say, Calls, Said};

const DCT8: u8 = 2;
const HORNUSS: u8 = 3;
const FREE: u8 = 0;

pub fn said(calls: &Calls) -> Vec<Said> {
    let dct8 = |sigma: &[f32]| blocks(1, DCT8, sigma);
    let examples = [
        (
            "M12 (02, No. 12): Hornuss and Dct8",
            [blocks(1, HORNUSS, &[0.0]), dct8(&[0.0])],
            "no",
        ),
        (
            "02, No. 12: sigma +0.0 and -0.0",
            [dct8(&[0.0]), dct8(&[-0.0])],
            "no",
        ),
        (
            "02, No. 12: the largest finite sigma, twice",
            [dct8(&[f32::MAX]), dct8(&[f32::MAX])],
            "yes",
        ),
        (
            "02, No. 12: one block, sigma +0.0 and NaN",
            [dct8(&[0.0, f32::NAN]), dct8(&[0.0])],
            "refused 11 0 0",
        ),
        (
            "02, No. 12: a free cell, and a NaN",
            [blocks(1, FREE, &[0.0]), dct8(&[f32::NAN])],
            "refused 11 0 0",
        ),
        (
            "02, No. 12: a NaN, and 257 blocks wide",
            [dct8(&[f32::NAN]), blocks(257, DCT8, &[0.0])],
            "refused 2 0 0",
        ),
    ];
    let said = examples.map(|(example, [left, right], paper)| {
        let answer = (calls.alike)(&AlikeCall { left, right });
        let words = |yes| String::from(if yes { "yes" } else { "no" });
        row(example, say(answer, words), paper)
    });
    said.into()
}

/// Blocks of one kind beside each other.
fn blocks(bw: usize, kind: u8, sigma: &[f32]) -> FilteredLayout {
    FilteredLayout {
        layout: Layout {
            bw,
            bh: 1,
            kinds: vec![kind; bw],
            hf_mul: vec![i32::from(kind >= DCT8); bw],
        },
        sigma: sigma.to_vec(),
    }
}
