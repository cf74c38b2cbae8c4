use calls::{Answer, Refusal, Store, ORDER_COUNT, STORE_LENGTH};
use jxl_bitstream::{Bitstream, Coded};
use jxl_oxide_common::Bundle;

use super::refusal_of;
use crate::{HfBlockContext, HfPass, HfPassParams};

/// Orders that the Rust read, together with the cluster map that it was lent.
pub struct Orders {
    pub(super) pass: HfPass,
    pub bits_read: usize,
    pub symbols_read: usize,
}

/// The order call: `HfPass::parse`. Its entropy decoder's cluster map is lent along.
pub fn orders(bytes: &[u8], symbols: &[u32], cluster_map: &[u8]) -> Answer<Orders> {
    let coded = Coded {
        symbols,
        cluster_map,
        ..Coded::default()
    };
    let mut bitstream = Bitstream::with_coded(bytes, coded);
    let contexts = HfBlockContext::default();
    let result = HfPass::parse(&mut bitstream, HfPassParams::new(&contexts, 1));
    match result {
        Ok(pass) => Ok(Orders {
            pass,
            bits_read: bitstream.bits_read(),
            symbols_read: bitstream.coded.symbols_read,
        }),
        Err(error) => Err(refusal_of(&error, &bitstream)),
    }
}

impl Orders {
    /// Writes all 39 lists into a store of their length, one behind the other.
    pub fn write(&self, store: &mut [u16]) {
        let mut places = store.chunks_exact_mut(2);
        for order in 0..ORDER_COUNT {
            for channel in 0..3 {
                let list = self.pass.order(order, channel);
                for (&(x, y), place) in list.iter().zip(&mut places) {
                    place.copy_from_slice(&[x, y]);
                }
            }
        }
    }

    pub fn store(&self) -> Store {
        let mut store = vec![0; STORE_LENGTH];
        self.write(&mut store);
        store
    }
}

/// What a store holds after the order call was refused.
pub fn store_after(refusal: Refusal, start: &Store) -> Store {
    match refusal.number {
        13 | 15 => vec![0; start.len()],
        _ => start.clone(),
    }
}
