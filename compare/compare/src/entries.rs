//! Which entries of a preset's part of the cluster map a coefficient call takes. Where each entry is
//! its own number, the log of clusters tells them; clusters are bytes, so the call is made twice, over
//! a map of low bytes and over one of high bytes.

use calls::{CoefficientBuffers, CoefficientsCall, Outcome};
use jxl_vardct::oracle::Orders;

use crate::make::OrdersAndStore;

/// Natural orders with each of the two maps.
pub struct Entries {
    pub low: OrdersAndStore,
    high: OrdersAndStore,
}

/// What a coefficient call did, and the entry of each symbol that it read.
pub struct Logged {
    pub outcome: Outcome<usize, CoefficientBuffers>,
    pub entries: Vec<usize>,
}

impl Entries {
    /// Maps of so many entries, 65,536 at most.
    pub fn new(count: usize) -> Self {
        let orders = |byte: usize| {
            let map = (0..count).map(|entry| entry.to_le_bytes()[byte]);
            OrdersAndStore::new(0, &[], map.collect())
        };
        Self {
            low: orders(0),
            high: orders(1),
        }
    }

    /// Makes a call over the orders of each map. It has to be accepted or refused while symbols are
    /// read, behind a preset that takes no bits.
    pub fn logged(
        &self,
        call: impl Fn(&OrdersAndStore) -> CoefficientsCall,
        coefficients: impl Fn(&CoefficientsCall, &Orders) -> Outcome<usize, CoefficientBuffers>,
    ) -> Logged {
        let outcome = |orders| coefficients(&call(orders), &orders.orders);
        let (low, high) = (outcome(&self.low), outcome(&self.high));
        let read = low.answer.unwrap_or_else(|refusal| refusal.x);
        let bytes = low.buffers.log.iter().zip(&high.buffers.log);
        let entry = |(&low, &high): (&u8, &u8)| usize::from(u16::from_le_bytes([low, high]));
        Logged {
            entries: bytes.take(read).map(entry).collect(),
            outcome: low,
        }
    }
}
