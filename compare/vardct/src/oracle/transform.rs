use calls::{Answer, Refusal, Transform};

use crate::{BlockInfo, TransformType};

/// What a transform number of one byte carries.
pub fn transform(number: u8) -> Answer<Transform> {
    let transform = TransformType::try_from(number).map_err(|_| Refusal::plain(5))?;
    let (wide, high) = transform.dct_select_size();
    Ok(Transform {
        wide: wide as usize,
        high: high as usize,
        order: transform.order_id() as usize,
        turns: transform.need_transpose(),
    })
}

/// The Rust's word for a block of the given kind and hf_mul.
pub fn block_info(kind: u8, hf_mul: i32) -> BlockInfo {
    match kind {
        0 => BlockInfo::Uninit,
        1 => BlockInfo::Occupied,
        _ => BlockInfo::Data {
            dct_select: TransformType::try_from(kind - 2).expect("a kind is at most 28"),
            hf_mul,
        },
    }
}

/// The paper's word for a block: kind and hf_mul.
pub(super) fn kind_and_mul(info: BlockInfo) -> (u8, i32) {
    match info {
        BlockInfo::Uninit => (0, 0),
        BlockInfo::Occupied => (1, 0),
        BlockInfo::Data { dct_select, hf_mul } => (2 + dct_select as u8, hf_mul),
    }
}
