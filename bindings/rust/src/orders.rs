use netbuff_sys as sys;

use crate::refusal::call;
use crate::Result;

#[cfg(feature = "alloc")]
use alloc::{boxed::Box, vec};

/// Length of a store: x and y of 393,984 places.
pub const STORE_LENGTH: usize = 2 * 393_984;

/// The orders of a pass, lent: 39 lists of places one behind the other, by order and channel, each
/// place as x and y.
#[derive(Debug, Copy, Clone)]
pub struct Orders<'a> {
    /// [`STORE_LENGTH`] numbers.
    pub store: &'a [u16],
}

impl<'a> Orders<'a> {
    /// The list of an order (0 to 12) and channel (0 to 2): x and y of each place. Empty for an
    /// order above 12, a channel above 2 or a store of another length.
    pub fn list(self, order: usize, channel: usize) -> &'a [u16] {
        self::order(self.store, order, channel)
    }

    /// The same list, place by place.
    pub fn places(self, order: usize, channel: usize) -> impl Iterator<Item = (u16, u16)> + 'a {
        let list = self.list(order, channel);
        list.chunks_exact(2).map(|place| (place[0], place[1]))
    }
}

/// The orders of a pass in memory of their own, 1.5 MB on the heap.
#[cfg(feature = "alloc")]
#[derive(Debug, Clone, PartialEq, Eq)]
pub struct OrdersBuf {
    /// [`STORE_LENGTH`] numbers.
    pub store: Box<[u16]>,
    /// How many symbols were read for it.
    pub symbols_read: usize,
}

#[cfg(feature = "alloc")]
impl OrdersBuf {
    /// Reads the orders into memory of their own.
    ///
    /// # Errors
    ///
    /// Those of [`orders`], 1 excepted.
    ///
    /// ```
    /// use netbuff::OrdersBuf;
    ///
    /// // 13 bits that name order 0 alone; channel 0: one digit, 1; channels 1 and 2: none.
    /// let permuted = OrdersBuf::read(&[0b111, 0], &[1, 1, 0, 0])?;
    /// let places: Vec<_> = permuted.orders().places(0, 0).take(4).collect();
    /// assert_eq!(places, [(0, 0), (0, 1), (1, 0), (0, 2)]);
    /// # Ok::<(), netbuff::Refusal>(())
    /// ```
    pub fn read(bytes: &[u8], symbols: &[u32]) -> Result<Self> {
        let mut store = vec![0; STORE_LENGTH].into_boxed_slice();
        let symbols_read = orders(bytes, symbols, &mut store)?;
        Ok(Self {
            store,
            symbols_read,
        })
    }

    /// The natural order for every order and channel.
    ///
    /// ```
    /// let natural = netbuff::OrdersBuf::natural();
    /// let places: Vec<_> = natural.orders().places(0, 2).take(3).collect();
    /// assert_eq!(places, [(0, 0), (1, 0), (0, 1)]);
    /// ```
    pub fn natural() -> Self {
        // Selector 2: no order is permuted.
        Self::read(&[2], &[]).expect("two bits that name no order are accepted")
    }

    /// Lends the orders.
    pub fn orders(&self) -> Orders<'_> {
        Orders { store: &self.store }
    }
}

/// Reads the orders of a pass into a store; the answer is the number of symbols read.
///
/// The bytes tell which of the 13 orders are permuted: U32(95, 19, 0, 13 bits), bit k for order k.
/// For each of those the symbols have three permutations, channels 0, 1, 2: a length, then that many
/// digits. The first numbers of an order are fixed, one for each block of its varblocks; from the
/// ascending rest, digit d takes the d-th. All other orders are the natural order. Surplus symbols
/// are accepted. The store has [`STORE_LENGTH`] numbers; [`OrdersBuf::read`] brings it along.
///
/// # Errors
///
/// 1, 3: the store stays as it was. 13, 15: the store is all zero.
///
/// ```
/// use netbuff::{orders, Refusal, STORE_LENGTH};
///
/// let mut store = vec![0; STORE_LENGTH];
/// assert_eq!(orders(&[2], &[], &mut store)?, 0);
/// assert_eq!(store[..6], [0, 0, 1, 0, 0, 1]);
///
/// // A Dct8 has 63 places that can be permuted.
/// let refused = orders(&[0b111, 0], &[64], &mut store).unwrap_err();
/// assert_eq!(refused, Refusal::Order { symbols_read: 1 });
/// assert!(store.iter().all(|&number| number == 0));
/// # Ok::<(), Refusal>(())
/// ```
pub fn orders(bytes: &[u8], symbols: &[u32], store: &mut [u16]) -> Result<usize> {
    let mut symbols_read = 0;
    // SAFETY: the lists and every reference are valid for the call, the store is lent to nobody
    // else, and nothing is kept.
    call(|x, y| unsafe {
        sys::netbuff_orders(
            bytes.as_ptr(),
            bytes.len(),
            symbols.as_ptr(),
            symbols.len(),
            store.as_mut_ptr(),
            store.len(),
            &mut symbols_read,
            x,
            y,
        )
    })?;
    Ok(symbols_read)
}

/// The list of an order (0 to 12) and channel (0 to 2) in a store: x and y of each place. Empty for
/// an order above 12, a channel above 2 or a store of another length. Never refused.
///
/// ```
/// use netbuff::{order, STORE_LENGTH};
///
/// let store = vec![0; STORE_LENGTH];
/// assert_eq!(order(&store, 0, 2).len(), 2 * 64);
/// assert_eq!(order(&store, 12, 0).len(), 2 * 32 * 16 * 64);
/// assert!(order(&store, 13, 0).is_empty() && order(&store[1..], 0, 0).is_empty());
/// ```
pub fn order(store: &[u16], order: usize, channel: usize) -> &[u16] {
    let (mut first, mut count) = (0, 0);
    // SAFETY: the store and both references are valid for the call, and nothing is kept.
    unsafe {
        sys::netbuff_order(
            store.as_ptr(),
            store.len(),
            order,
            channel,
            &mut first,
            &mut count,
        );
    }
    &store[first..][..count]
}

/// Whether a store has its length, and every place of its 39 lists is inside its order's size.
///
/// ```
/// use netbuff::{places_fit, STORE_LENGTH};
///
/// let mut store = vec![0; STORE_LENGTH];
/// assert!(places_fit(&store) && !places_fit(&store[1..]));
/// store[0] = 8; // x of a place of order 0, which is 8 x 8
/// assert!(!places_fit(&store));
/// ```
pub fn places_fit(store: &[u16]) -> bool {
    // SAFETY: the store is valid for the call, and nothing is kept.
    unsafe { sys::netbuff_places_fit(store.as_ptr(), store.len()) }
}
