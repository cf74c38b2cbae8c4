use calls::Situation;

use super::{row, say, Calls, Said};
use crate::walks::Walks;

const REFUSED: &str = "refused 11 0 0";

/// Situations: blocks, what is due at which place, and the flag. The first is the one that no walk
/// comes to.
const EXAMPLES: [(&str, [u32; 4], &str); 19] = [
    ("02, No. 9: 1 block, 1 at 0, 0", [1, 1, 0, 0], "0"),
    ("02, No. 9: 1 block, 1 at 0, 1", [1, 1, 0, 1], "1"),
    ("02, No. 9: 2 blocks, 2 at 1, 0", [2, 2, 1, 0], "0"),
    ("02, No. 9: 2 blocks, 3 at 1, 0", [2, 3, 1, 0], "62"),
    ("02, No. 9: 2 blocks, 2 at 2, 0", [2, 2, 2, 0], "2"),
    ("02, No. 9: 1 block, 3 at 60, 0", [1, 3, 60, 0], "184"),
    ("02, No. 9: 1 block, 4 at 59, 0", [1, 4, 59, 0], "184"),
    ("02, No. 9: 1 block, 1 at 62, 1", [1, 1, 62, 1], "61"),
    ("02, No. 9: 1 block, 63 at 0, 0", [1, 63, 0, 0], "412"),
    ("02, No. 9: 1 block, 33 at 30, 1", [1, 33, 30, 1], "457"),
    (
        "02, No. 9: 1,024 blocks, 32,769 at 31,743, 1",
        [1024, 32_769, 31_743, 1],
        "457",
    ),
    (
        "02, No. 9: 1,024 blocks, 1 at 64,511, 0",
        [1024, 1, 64_511, 0],
        "60",
    ),
    ("02, No. 9: 1 block, 33 at 31, 0", [1, 33, 31, 0], REFUSED),
    (
        "02, No. 9: 1,024 blocks, 1 at 64,512, 0",
        [1024, 1, 64_512, 0],
        REFUSED,
    ),
    ("02, No. 9: 1 block, 0 at 0, 0", [1, 0, 0, 0], REFUSED),
    ("02, No. 9: 3 blocks, 1 at 0, 0", [3, 1, 0, 0], REFUSED),
    (
        "02, No. 9: 2,048 blocks, 1 at 0, 0",
        [2048, 1, 0, 0],
        REFUSED,
    ),
    ("02, No. 9: 1 block, 1 at 0, 2", [1, 1, 0, 2], REFUSED),
    (
        "02, No. 9: 1 block, 2^32 - 1 at 2, 0",
        [1, u32::MAX, 2, 0],
        REFUSED,
    ),
];

pub fn said(calls: &Calls) -> Vec<Said> {
    let walks = Walks::new();
    let said = EXAMPLES.map(|(example, [blocks, count, place, prev], paper)| {
        let situation = Situation {
            blocks,
            count,
            place,
            prev,
        };
        let answer = (calls.census)(&situation, &walks);
        row(example, say(answer, |number| number.to_string()), paper)
    });
    said.into()
}
