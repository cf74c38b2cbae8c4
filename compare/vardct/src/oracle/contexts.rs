use calls::{Answer, Contexts, ContextsCall, LIST_MOST};
use jxl_bitstream::{Bitstream, Coded};
use jxl_oxide_common::Bundle;

use super::refusal_of;
use crate::HfBlockContext;

/// What `HfBlockContext::parse` made of the bits and the lent count and map.
pub struct ContextsRead {
    pub bits_read: usize,
    /// How many map entries the Rust asked for; none where it looks at no lent map.
    pub asked: Option<u32>,
    pub contexts: HfBlockContext,
}

/// The context call. The Rust takes whatever count and map are lent: judging them is the paper's.
pub fn contexts(call: &ContextsCall) -> Answer<ContextsRead> {
    let coded = Coded {
        cluster_count: call.count,
        cluster_map: &call.map,
        ..Coded::default()
    };
    let mut bitstream = Bitstream::with_coded(&call.bytes, coded);
    match HfBlockContext::parse(&mut bitstream, ()) {
        Ok(contexts) => Ok(ContextsRead {
            bits_read: bitstream.bits_read(),
            asked: bitstream.coded.clusters_asked,
            contexts,
        }),
        Err(error) => Err(refusal_of(&error, &bitstream)),
    }
}

/// The Rust's own form of a record that the paper lets pass.
pub fn own_form(record: &Contexts) -> HfBlockContext {
    HfBlockContext {
        qf_thresholds: record.qf_list().to_vec(),
        lf_thresholds: std::array::from_fn(|c| record.lf_list(c).to_vec()),
        block_ctx_map: record.used_map().to_vec(),
        num_block_clusters: record.count,
    }
}

/// The paper's form of what the Rust read, of at most 15 thresholds a list and 64 sets of 39.
pub fn paper_form(read: &HfBlockContext) -> Contexts {
    let mut record = Contexts {
        count: read.num_block_clusters,
        ..Contexts::ZERO
    };
    let lists = record.lf.chunks_mut(LIST_MOST).zip(&read.lf_thresholds);
    for (channel, (list, thresholds)) in lists.enumerate() {
        list[..thresholds.len()].copy_from_slice(thresholds);
        record.lengths[channel] = thresholds.len() as u32;
    }
    record.lengths[3] = read.qf_thresholds.len() as u32;
    record.qf[..read.qf_thresholds.len()].copy_from_slice(&read.qf_thresholds);
    record.map[..read.block_ctx_map.len()].copy_from_slice(&read.block_ctx_map);
    record
}
