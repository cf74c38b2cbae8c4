use calls::{ColumnCountCall, ContextsCall};

use super::{row, say, Calls, Said};
use crate::bits::Bits;

pub fn said(calls: &Calls) -> Vec<Said> {
    let contexts = |bytes: &[u8], count, map: &[u8]| contexts(calls, bytes, count, map);
    let columns = |bytes: &[u8]| columns(calls, bytes);
    let no_lists = Bits::default().put(0, 17).bytes();
    vec![
        row(
            "3: empty bytes, context bit",
            contexts(&[], 0, &[]),
            "refused 3 0 0",
        ),
        row("first bit 1", contexts(&[1], 0, &[]), "15 clusters, 1 bits"),
        row(
            "12: map byte 15, count 15",
            contexts(&no_lists, 15, &[15; 39]),
            "refused 12 0 0",
        ),
        row(
            "12: bsize 72",
            contexts(&bsize_72(), 1, &[0; 39 * 72]),
            "refused 12 0 0",
        ),
        row(
            "12: 17 clusters",
            contexts(&no_lists, 17, &[0; 39]),
            "refused 12 0 0",
        ),
        row(
            "bits end in the fourth length",
            contexts(&[0, 0], 15, &[0; 39]),
            "refused 3 13 0",
        ),
        row(
            "column count of 3 blocks",
            columns(&[0xff]),
            "4 columns, 2 bits",
        ),
        row("column count, no bytes", columns(&[]), "refused 3 0 0"),
    ]
}

/// LF lists of 2, 2 and 1 thresholds and a qf list of 3, all 0: the fewest bits above bsize 64.
fn bsize_72() -> Vec<u8> {
    let lists = [(2, 6), (2, 6), (1, 6), (3, 4)];
    let put = |bits: Bits, (length, value_bits)| {
        let values = length as usize * value_bits;
        bits.put(length, 4).put(0, values)
    };
    lists
        .into_iter()
        .fold(Bits::default().put(0, 1), put)
        .bytes()
}

fn contexts(calls: &Calls, bytes: &[u8], count: u32, map: &[u8]) -> String {
    let call = ContextsCall {
        bytes: bytes.to_vec(),
        count,
        map: map.to_vec(),
    };
    let outcome = (calls.contexts)(&call);
    let clusters = outcome.buffers.count;
    say(outcome.answer, |bits| {
        format!("{clusters} clusters, {bits} bits")
    })
}

fn columns(calls: &Calls, bytes: &[u8]) -> String {
    let call = ColumnCountCall {
        bytes: bytes.to_vec(),
        width: 24,
        height: 8,
        modes: [0; 3],
    };
    say((calls.column_count)(&call), |read| {
        format!("{} columns, {} bits", read.count, read.bits_read)
    })
}
