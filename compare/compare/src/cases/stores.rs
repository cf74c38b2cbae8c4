use std::fmt;
use std::sync::Arc;

use calls::{list_length, list_start, OrderCall, Outcome, Store, ORDER_COUNT, STORE_LENGTH};

use super::digits::Digits;
use super::orders::symbols;
use super::Case;
use crate::make::OrdersAndStore;
use crate::rng::Rng;

/// The look-up of a list, in stores that accepted order calls wrote and in stores of other lengths.
pub struct OrderCase {
    stores: Vec<Arc<Store>>,
}

const ORDERS: [usize; 4] = [13, 14, 64, usize::MAX];
const CHANNELS: [usize; 6] = [0, 1, 2, 3, 4, usize::MAX];

impl OrderCase {
    pub fn new(seed: u64) -> Self {
        let mut rng = Rng::new(seed);
        let mut stores = vec![Store::new()];
        for used in [0, 0x1fff] {
            let symbols = symbols(&mut rng, used);
            let store = OrdersAndStore::new(used, &symbols, Vec::new()).store;
            let longer = [&store[..], &[0]].concat();
            stores.extend([store[1..].to_vec(), longer, store.to_vec()]);
        }
        Self {
            stores: stores.into_iter().map(Arc::new).collect(),
        }
    }
}

impl Case for OrderCase {
    const NAME: &'static str = "order";
    type Input = OrderCall;
    type Value = Store;
    type Buffers = ();

    fn expected(&self, input: &OrderCall) -> Outcome<Store, ()> {
        let (order, channel) = (input.order, input.channel);
        let found = order < ORDER_COUNT && channel < 3 && input.store.len() == STORE_LENGTH;
        let list = || input.store[list_start(order, channel)..][..list_length(order)].to_vec();
        Outcome {
            answer: Ok(if found { list() } else { Store::new() }),
            buffers: (),
        }
    }

    fn short_count(&self) -> usize {
        self.stores.len() * (ORDER_COUNT + ORDERS.len()) * CHANNELS.len()
    }

    fn short(&self, number: usize) -> OrderCall {
        let mut digits = Digits::of(number);
        let order = digits.next(ORDER_COUNT + ORDERS.len());
        OrderCall {
            store: digits.pick(&self.stores),
            order: order.checked_sub(ORDER_COUNT).map_or(order, |k| ORDERS[k]),
            channel: digits.pick(&CHANNELS),
        }
    }

    fn random(&self, rng: &mut Rng) -> OrderCall {
        self.short(rng.below(self.short_count()))
    }

    fn smaller(&self, _input: &OrderCall) -> Vec<OrderCall> {
        Vec::new()
    }
}

/// The check of stored places, on a store with some numbers changed.
pub struct PlacesCase {
    store: Store,
}

/// Which numbers of the store hold what.
#[derive(Clone)]
pub struct PlacesInput {
    pub store: Store,
    changed: Vec<(usize, u16)>,
}

impl fmt::Debug for PlacesInput {
    fn fmt(&self, f: &mut fmt::Formatter<'_>) -> fmt::Result {
        write!(
            f,
            "{} numbers, changed {:?}",
            self.store.len(),
            self.changed
        )
    }
}

impl PlacesCase {
    pub fn new() -> Self {
        let store = OrdersAndStore::new(0, &[], Vec::new()).store;
        Self {
            store: store.to_vec(),
        }
    }

    fn changed(&self, changed: Vec<(usize, u16)>) -> PlacesInput {
        let mut store = self.store.clone();
        for &(place, number) in &changed {
            store[place] = number;
        }
        PlacesInput { store, changed }
    }
}

impl Default for PlacesCase {
    fn default() -> Self {
        Self::new()
    }
}

impl Case for PlacesCase {
    const NAME: &'static str = "places";
    type Input = PlacesInput;
    type Value = bool;
    type Buffers = ();

    fn expected(&self, input: &PlacesInput) -> Outcome<bool, ()> {
        let fits = paper::store_fits(&input.store) && paper::places_inside(&input.store);
        Outcome {
            answer: Ok(fits),
            buffers: (),
        }
    }

    /// The first and the last number of each list, just inside and just outside.
    fn short_count(&self) -> usize {
        3 * ORDER_COUNT * 4 * 2
    }

    fn short(&self, number: usize) -> PlacesInput {
        let mut digits = Digits::of(number);
        let (order, channel) = (digits.next(ORDER_COUNT), digits.next(3));
        let length = list_length(order);
        let place = digits.pick(&[0, 1, length - 2, length - 1]);
        let (width, height) = calls::ORDER_SIZES[order];
        let side = [width, height][place % 2];
        let held = side - digits.next(2);
        self.changed(vec![(list_start(order, channel) + place, held as u16)])
    }

    fn random(&self, rng: &mut Rng) -> PlacesInput {
        if rng.once_in(20) {
            let mut input = self.changed(Vec::new());
            input.store.resize(rng.misfit(STORE_LENGTH), 0);
            return input;
        }
        let numbers = [0, 7, 8, 15, 16, 127, 128, 255, 256, u16::MAX];
        let change = |_| (rng.below(STORE_LENGTH), rng.pick(&numbers));
        let changes = (0..2).map(change).collect();
        self.changed(changes)
    }

    fn smaller(&self, input: &PlacesInput) -> Vec<PlacesInput> {
        let shorter = super::shorter(&input.changed).into_iter();
        let changed = shorter.map(|changed| self.changed(changed));
        changed
            .filter(|_| input.store.len() == STORE_LENGTH)
            .collect()
    }
}
