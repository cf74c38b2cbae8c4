use calls::{CutCall, Layout, LayoutCall};

use super::{row, say, Calls, Said};
use crate::make;

pub fn said(calls: &Calls) -> Vec<Said> {
    let mut rows = layouts(calls);
    rows.extend(transforms(calls));
    rows.extend(strengths(calls));
    rows.push(row("18: one free cell", free_cell(calls), "refused 18 0 0"));
    rows
}

fn layouts(calls: &Calls) -> Vec<Said> {
    let one = |column| make::layout(8, 8, &[column]);
    let square = |columns: &[_]| make::layout(16, 16, columns);
    let examples = [
        (
            "1: 3 sharpness numbers, 4 blocks",
            three_sharpness(),
            "refused 1 0 0",
        ),
        (
            "2: width 2,049",
            make::layout(2049, 8, &[]),
            "refused 2 0 0",
        ),
        (
            "4: 2 blocks, one column of type 0",
            make::layout(16, 8, &[(0, 0)]),
            "refused 4 1 0",
        ),
        ("5: type 27", one((27, 0)), "refused 5 0 0"),
        ("02, No. 5: type 256", one((256, 0)), "refused 5 0 0"),
        (
            "02, No. 5: type -256, mul -1",
            one((-256, -1)),
            "refused 5 0 0",
        ),
        (
            "02, No. 5: a surplus column of type 256",
            make::layout(8, 8, &[(0, 0), (256, 0)]),
            "used 1: [2] [1]",
        ),
        (
            "surplus columns",
            make::layout(8, 8, &[(0, 0), (99, -7)]),
            "used 1: [2] [1]",
        ),
        ("6, M5: mul -1", one((0, -1)), "refused 6 0 0"),
        ("M5: mul 0", one((0, 0)), "used 1: [2] [1]"),
        ("6: the largest mul", one((0, i32::MAX)), "refused 6 0 0"),
        ("7, M6: x = 31, type 7", wide_row(31), "refused 7 31 0"),
        (
            "8: 2 x 2 blocks: types 0, 6, 7",
            square(&[(0, 0), (6, 0), (7, 0)]),
            "refused 8 0 1",
        ),
        ("9: 1 block, type 4", one((4, 0)), "refused 9 0 0"),
        (
            "sharpness 8, filter off",
            sharpness_8(None),
            "used 1: [2] [1]",
        ),
        ("10: filter on, 8", sharpness_8(Some(1.0)), "refused 10 0 0"),
        ("11: scale 0", scale_0(), "refused 11 0 0"),
        (
            "M4: the lister's layout",
            square(&[(6, 4), (0, 0), (0, 2)]),
            "used 3: [8, 2, 1, 2] [5, 1, 0, 3]",
        ),
    ];
    let passes = (calls.layout)(&wide_row(30)).answer;
    let mut rows: Vec<Said> = examples
        .into_iter()
        .map(|(example, call, paper)| row(example, say_layout(calls, &call), paper))
        .collect();
    let said = say(passes, |used| format!("used {used}"));
    rows.push(row("M6: x = 30, type 7", said, "used 32"));
    rows
}

fn say_layout(calls: &Calls, call: &LayoutCall) -> String {
    let outcome = (calls.layout)(call);
    let filled = format!("{:?} {:?}", outcome.buffers.kinds, outcome.buffers.hf_mul);
    say(outcome.answer, |used| format!("used {used}: {filled}"))
}

fn three_sharpness() -> LayoutCall {
    let mut call = make::layout(16, 16, &[(4, 0)]);
    call.sharpness.pop();
    call
}

/// One row of 33 blocks, with type 7 at x and type 0 else.
fn wide_row(x: usize) -> LayoutCall {
    let columns = [vec![(0, 0); x], vec![(7, 0)], vec![(0, 0); 40]].concat();
    make::layout(264, 8, &columns)
}

fn sharpness_8(filter: Option<f32>) -> LayoutCall {
    let mut call = make::layout(8, 8, &[(0, 0)]);
    call.sharpness[0] = 8;
    call.filter = filter;
    call
}

fn scale_0() -> LayoutCall {
    let mut call = make::layout(8, 8, &[(0, 0)]);
    call.scale = 0;
    call
}

fn transforms(calls: &Calls) -> [Said; 3] {
    let looked = |number| say((calls.transform)(number), |found| format!("{found:?}"));
    let dct16x8 = "Transform { wide: 1, high: 2, order: 4, turns: true }";
    [
        row("5: 27 looked up", looked(27), "refused 5 0 0"),
        row("5: 256 looked up", looked(256), "refused 5 0 0"),
        row("6 is Dct16x8, one wide and two high", looked(6), dct16x8),
    ]
}

/// M8: 0.5 × 65,536 / 32,768 is 1, and 1 / 16,777,216 the power of two 2^-24, which is shown as
/// 5.9604645e-8; by 16,777,217 or 16,777,218 it would be a number below.
fn strengths(calls: &Calls) -> [Said; 2] {
    let sigma = |hf_mul: i32, look_up| {
        let mut call = make::layout(8, 8, &[(0, hf_mul - 1)]);
        call.filter = Some(0.5);
        call.scale = 32_768;
        call.lookup = [look_up; 8];
        format!("{:?}", (calls.layout)(&call).buffers.sigma)
    };
    let large = sigma(16_777_217, 1.0);
    [
        row("M7: 0.5, 32,768, hf_mul 4, 2.0", sigma(4, 2.0), "[0.5]"),
        row("M8: hf_mul 16,777,217", large, "[5.9604645e-8]"),
    ]
}

fn free_cell(calls: &Calls) -> String {
    let call = CutCall {
        layout: Layout {
            bw: 1,
            bh: 1,
            kinds: vec![0],
            hf_mul: vec![0],
        },
        group: 0,
        kinds: vec![0],
        hf_mul: vec![0],
    };
    say((calls.cut)(&call).answer, |sides| format!("{sides:?}"))
}
