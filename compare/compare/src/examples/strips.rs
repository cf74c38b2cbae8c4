//! Strips without blocks (document 02, No. 2).

use std::sync::Arc;

use calls::{
    AlikeCall, CoefficientsCall, ColumnCountCall, CutCall, FilteredLayout, Layout, LayoutCall,
};

use super::{row, say, Calls, Said};
use crate::make::{self, OrdersAndStore};

const REFUSED_2: &str = "refused 2 0 0";

pub fn said(calls: &Calls) -> Vec<Said> {
    let mut rows = layouts(calls);
    rows.extend(column_counts(calls));
    rows.extend(cuts(calls));
    rows.extend(likeness(calls));
    rows.extend(coefficients(calls));
    rows
}

/// Columns used, and the grid.
fn layouts(calls: &Calls) -> Vec<Said> {
    let plain = |width, height| make::layout(width, height, &[]);
    let changed = |change: fn(&mut LayoutCall)| {
        let mut call = plain(0, 17);
        change(&mut call);
        call
    };
    let with_mode = |width, height, mode| LayoutCall {
        modes: [mode, 0, 0],
        ..plain(width, height)
    };
    let three = "used 0, 0 x 3 blocks";
    let examples = [
        ("02, No. 2: 0 x 17 pixels", plain(0, 17), three),
        (
            "02, No. 2: 0 x 17 pixels, a surplus column",
            make::layout(0, 17, &[(99, -7)]),
            three,
        ),
        (
            "02, No. 2: 0 x 8 pixels, mode 1",
            with_mode(0, 8, 1),
            "used 0, 0 x 2 blocks",
        ),
        (
            "02, No. 2: 8 x 0 pixels, mode 2",
            with_mode(8, 0, 2),
            "used 0, 2 x 0 blocks",
        ),
        ("2 (02, No. 2): 0 x 2,049 pixels", plain(0, 2049), REFUSED_2),
        (
            "1 (02, No. 2): 0 x 17, a sharpness number",
            changed(|call| call.sharpness.push(0)),
            "refused 1 0 0",
        ),
        (
            "11 (02, No. 2): 0 x 17 pixels, scale 0",
            changed(|call| call.scale = 0),
            "refused 11 0 0",
        ),
    ];
    let said = examples.map(|(example, call, paper)| {
        let answer = (calls.layout)(&call).answer;
        let accepted = |used| {
            let (bw, bh) = (calls.grid_sides)(&call);
            format!("used {used}, {bw} x {bh} blocks")
        };
        row(example, say(answer, accepted), paper)
    });
    said.into()
}

/// Of no bytes.
fn column_counts(calls: &Calls) -> [Said; 3] {
    let examples = [
        (
            "02, No. 2: column count of 0 x 17 pixels",
            (0, 17),
            "1 columns, 0 bits",
        ),
        (
            "02, No. 2: column count of 2,048 x 0",
            (2048, 0),
            "1 columns, 0 bits",
        ),
        (
            "2 (02, No. 2): column count of 0 x 2,049",
            (0, 2049),
            REFUSED_2,
        ),
    ];
    examples.map(|(example, (width, height), paper)| {
        let call = ColumnCountCall {
            bytes: Vec::new(),
            width,
            height,
            modes: [0; 3],
        };
        let said = say((calls.column_count)(&call), |read| {
            format!("{} columns, {} bits", read.count, read.bits_read)
        });
        row(example, said, paper)
    })
}

fn empty(bw: usize, bh: usize) -> Layout {
    Layout {
        bw,
        bh,
        ..Layout::default()
    }
}

fn cuts(calls: &Calls) -> [Said; 2] {
    let examples = [
        ("2 (02, No. 2): group 0 of 0 x 256 blocks", empty(0, 256)),
        ("2 (02, No. 2): group 0 of 0 x 257 blocks", empty(0, 257)),
    ];
    examples.map(|(example, layout)| {
        let call = CutCall {
            layout,
            group: 0,
            kinds: Vec::new(),
            hf_mul: Vec::new(),
        };
        let said = say((calls.cut)(&call).answer, |sides| format!("{sides:?}"));
        row(example, said, REFUSED_2)
    })
}

fn likeness(calls: &Calls) -> [Said; 4] {
    let one = Layout {
        bw: 1,
        bh: 1,
        kinds: vec![2],
        hf_mul: vec![1],
    };
    let examples = [
        (
            "02, No. 2: 0 x 3 and 5 x 0 blocks",
            [empty(0, 3), empty(5, 0)],
            "yes",
        ),
        (
            "02, No. 2: 0 x 3 blocks and one Dct8",
            [empty(0, 3), one],
            "no",
        ),
        (
            "02, No. 2: 0 x 256 and 0 x 0 blocks",
            [empty(0, 256), empty(0, 0)],
            "yes",
        ),
        (
            "2 (02, No. 2): 0 x 257 and 0 x 0 blocks",
            [empty(0, 257), empty(0, 0)],
            REFUSED_2,
        ),
    ];
    examples.map(|(example, layouts, paper)| {
        let [left, right] = layouts.map(|layout| FilteredLayout {
            sigma: vec![0.0; layout.blocks()],
            layout,
        });
        let answer = (calls.alike)(&AlikeCall { left, right });
        let words = |yes| String::from(if yes { "yes" } else { "no" });
        row(example, say(answer, words), paper)
    })
}

/// Groups with default contexts: presets, the bytes of the preset's number, symbols.
fn coefficients(calls: &Calls) -> Vec<Said> {
    const PRESETS: usize = 2;
    let map = vec![0; PRESETS * 15 * paper::ENTRIES_PER_CLUSTER];
    let orders = OrdersAndStore::new(0, &[], map);
    let call = |(bw, bh), presets: u32, bytes: &[u8], symbols: &[u32]| {
        let mut call = orders.coefficients(empty(bw, bh), make::default_contexts(), symbols);
        let entries = orders.cluster_map.len() / PRESETS * presets as usize;
        call.presets = presets;
        call.cluster_map = orders.cluster_map[..entries].to_vec();
        call.bytes = bytes.to_vec();
        call
    };
    let group = (0, 3);
    let mut outside: CoefficientsCall = call(group, 1, &[], &[]);
    Arc::make_mut(&mut outside.store)[0] = 8;
    let examples = [
        (
            "02, No. 2: group of 0 x 3 blocks",
            call(group, 1, &[], &[]),
            "read 0",
        ),
        (
            "02, No. 2: group of 32 x 0, symbols 9, 9",
            call((32, 0), 1, &[], &[9, 9]),
            "read 0",
        ),
        (
            "02, No. 2: group of 0 x 3, two presets, 1",
            call(group, 2, &[1], &[]),
            "read 0",
        ),
        (
            "3 (02, No. 2): 0 x 3, two presets, no bits",
            call(group, 2, &[], &[]),
            "refused 3 0 0",
        ),
        (
            "14 (02, No. 2): 0 x 3, presets 0",
            call(group, 0, &[], &[]),
            "refused 14 0 0",
        ),
        (
            "13 (02, No. 2): 0 x 3, a place outside",
            outside,
            "refused 13 0 0",
        ),
        (
            "2 (02, No. 2): group of 33 x 0 blocks",
            call((33, 0), 1, &[], &[]),
            REFUSED_2,
        ),
    ];
    let said = examples.map(|(example, call, paper)| {
        let outcome = (calls.coefficients)(&call, &orders.orders);
        let said = say(outcome.answer, |read| format!("read {read}"));
        row(example, said, paper)
    });
    said.into()
}
