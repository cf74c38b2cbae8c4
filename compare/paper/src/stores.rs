use calls::{list_start, Store, ORDER_COUNT, ORDER_SIZES, STORE_LENGTH};

pub fn store_fits(store: &Store) -> bool {
    store.len() == STORE_LENGTH
}

/// Whether every place of each of the 39 lists is inside its order's size.
pub fn places_inside(store: &Store) -> bool {
    (0..ORDER_COUNT).all(|order| {
        let (width, height) = ORDER_SIZES[order];
        let lists = &store[list_start(order, 0)..list_start(order + 1, 0)];
        let (x, y) = largest(lists);
        usize::from(x) < width && usize::from(y) < height
    })
}

/// The largest x and the largest y.
fn largest(places: &[u16]) -> (u16, u16) {
    let pairs = places.chunks_exact(2);
    pairs.fold((0, 0), |(x, y), place| (place[0].max(x), place[1].max(y)))
}
