use std::hint::black_box;

use calls::{ContextsCall, Refusal};
use compare::bits::Bits;
use jxl_vardct::oracle;

use crate::measure::{plain, Sides};
use crate::rows::Bench;

pub fn benches() -> Vec<Bench> {
    vec![
        bench("contexts, default", default),
        bench("contexts, thresholds on all lists, bsize 64", all_lists),
        Bench::new("map cleared", map_cleared),
    ]
}

/// Records of growing maps, all read from bits.
pub fn growth() -> Vec<Bench> {
    vec![
        bench("contexts, no lists, bsize 1", || lists([0, 0, 0, 0])),
        bench("contexts, one list, bsize 8", || lists([0, 0, 0, 7])),
        bench("contexts, thresholds on all lists, bsize 64", all_lists),
    ]
}

fn bench(name: &str, call: fn() -> ContextsCall) -> Bench {
    Bench::new(name, move || sides(call()))
}

fn sides(call: ContextsCall) -> Sides {
    let other = call.clone();
    let mut record = ours::USED_RECORD;
    Sides {
        ours: Some(plain(move || ours::contexts_into(&call, &mut record))),
        rust: Some(plain(move || oracle::contexts(&other))),
        units: (1, "parse"),
    }
}

/// The record's map cleared by the library's own fill: what the time of the default record can be
/// held against. No call of Netbuff's.
fn map_cleared() -> Sides {
    let mut map = ours::USED_RECORD.block_ctx_map;
    Sides {
        ours: None,
        units: (map.len(), "place"),
        rust: Some(plain(move || {
            black_box(&mut map).fill(0);
            Ok::<_, Refusal>(map.len())
        })),
    }
}

fn default() -> ContextsCall {
    ContextsCall {
        bytes: vec![1],
        count: 0,
        map: Vec::new(),
    }
}

/// One threshold on each LF list and seven on the qf list: bsize 64.
pub fn all_lists() -> ContextsCall {
    lists([1, 1, 1, 7])
}

/// So many thresholds on the LF lists and on the qf list.
fn lists(lengths: [u32; 4]) -> ContextsCall {
    let mut bits = Bits::default().put(0, 1);
    let [lf @ .., qf] = lengths;
    for (length, value) in lf.into_iter().zip([0, 17, 34]) {
        bits = bits.put(length, 4);
        for _ in 0..length {
            bits = bits.put_u32(1, value, 8);
        }
    }
    bits = bits.put(qf, 4);
    for k in 0..qf {
        bits = bits.put_u32(k % 4, k, [2, 3, 5, 8][k as usize % 4]);
    }
    let bsize: u32 = lengths.map(|length| length + 1).iter().product();
    ContextsCall {
        bytes: bits.bytes(),
        count: 16,
        map: (0..39 * bsize).map(|k| (k % 16) as u8).collect(),
    }
}
