use std::fmt;
use std::sync::Arc;

/// BLOCK_SIZES: width and height of the 13 orders, in cells.
pub const ORDER_SIZES: [(usize, usize); ORDER_COUNT] = [
    (8, 8),
    (8, 8),
    (16, 16),
    (32, 32),
    (16, 8),
    (32, 8),
    (32, 16),
    (64, 64),
    (64, 32),
    (128, 128),
    (128, 64),
    (256, 256),
    (256, 128),
];
pub const ORDER_COUNT: usize = 13;
pub const LIST_COUNT: usize = 3 * ORDER_COUNT;
/// 393,984 places, two numbers each.
pub const STORE_LENGTH: usize = list_start(ORDER_COUNT, 0);

/// The 39 lists, one behind the other, by order and channel: x, y of each place.
pub type Store = Vec<u16>;

/// Where the list of an order and channel begins in the store.
pub const fn list_start(order: usize, channel: usize) -> usize {
    let mut start = 0;
    let mut before = 0;
    while before < order {
        start += 3 * list_length(before);
        before += 1;
    }
    if order < ORDER_COUNT {
        start += channel * list_length(order);
    }
    start
}

/// How many numbers a list of an order has in the store.
pub const fn list_length(order: usize) -> usize {
    2 * ORDER_SIZES[order].0 * ORDER_SIZES[order].1
}

/// The look-up of a list in a store (document 01, Orders).
#[derive(Clone)]
pub struct OrderCall {
    pub store: Arc<Store>,
    pub order: usize,
    pub channel: usize,
}

/// All but the store, of which the length is shown.
impl fmt::Debug for OrderCall {
    fn fmt(&self, f: &mut fmt::Formatter<'_>) -> fmt::Result {
        let Self { order, channel, .. } = self;
        write!(
            f,
            "order {order}, channel {channel}, {} numbers",
            self.store.len()
        )
    }
}

/// The order call (document 01, Orders).
#[derive(Clone)]
pub struct OrdersCall {
    pub bytes: Vec<u8>,
    pub symbols: Vec<u32>,
    pub store: Store,
}

/// All but the store, of which the length is shown.
impl fmt::Debug for OrdersCall {
    fn fmt(&self, f: &mut fmt::Formatter<'_>) -> fmt::Result {
        f.debug_struct("OrdersCall")
            .field("bytes", &self.bytes)
            .field("symbols", &self.symbols)
            .field("store length", &self.store.len())
            .finish()
    }
}
