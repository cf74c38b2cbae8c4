use calls::{list_start, CoefficientsCall, Layout, Store, ORDER_COUNT, ORDER_SIZES};
use compare::cases::symbol_stream;
use compare::make::{self, OrdersAndStore};
use compare::rng::Rng;
use jxl_vardct::oracle::CoefficientsRun;

use crate::measure::{plain, Sides};
use crate::rows::Bench;

const DCT8: u8 = 0;
const DCT32: u8 = 5;
const DCT64: u8 = 18;
const DCT256: u8 = 24;

/// Natural orders, and a cluster map for the default contexts.
fn orders() -> &'static OrdersAndStore {
    let map = Rng::new(2).bytes(paper::ENTRIES_PER_CLUSTER * 15);
    Box::leak(Box::new(OrdersAndStore::new(0, &[], map)))
}

/// Groups of Dct8 of growing sides.
pub fn growth() -> Vec<Bench> {
    let row = |side| {
        let name = format!("coefficients, {side} x {side} Dct8, sparse");
        bench(&name, move || tiled(side, |_| DCT8), 16)
    };
    [1, 4, 8, 16, 32].map(row).into()
}

pub fn benches() -> Vec<Bench> {
    let dct8 = || tiled(32, |_| DCT8);
    let one = || tiled(1, |_| DCT8);
    let halves = || tiled(32, |x| if x < 16 { DCT32 } else { DCT64 });
    vec![
        bench("coefficients, 32 x 32 Dct8, dense", dct8, 1),
        bench("coefficients, 32 x 32 Dct8, sparse", dct8, 16),
        bench("coefficients, 32 x 32, Dct32 and Dct64", halves, 4),
        bench("coefficients, one Dct256", || tiled(32, |_| DCT256), 4),
        bench("coefficients, 1 x 1 Dct8", one, 4),
        checked("coefficients, 32 x 32 Dct8, sparse", dct8, 16),
        checked("coefficients, 1 x 1 Dct8", one, 4),
        bench("coefficients, 0 x 32, no blocks", strip, 4),
        checked("coefficients, 0 x 32, no blocks", strip, 4),
    ]
}

fn bench(name: &str, group: impl FnOnce() -> Layout + 'static, sparseness: usize) -> Bench {
    Bench::new(name, move || sides(orders(), group(), sparseness, |_| true))
}

/// The same where the Rust too looks at every stored place first, as document 01 asks of the call.
fn checked(name: &str, group: impl FnOnce() -> Layout + 'static, sparseness: usize) -> Bench {
    Bench::new(format!("{name}, places in both"), move || {
        sides(orders(), group(), sparseness, places_inside)
    })
}

/// Sides of which the Rust's tests `first` of the store before each call.
fn sides(
    orders: &'static OrdersAndStore,
    group: Layout,
    sparseness: usize,
    first: impl Fn(&Store) -> bool + 'static,
) -> Sides {
    let symbols = symbol_stream(&mut Rng::new(4), &group, sparseness);
    let call = orders.coefficients(group, make::default_contexts(), &symbols);
    let call: &'static CoefficientsCall = Box::leak(Box::new(call));
    let run = CoefficientsRun::new(call, &orders.orders);
    let (mut our_buffers, mut rust_buffers) = (call.buffers.clone(), call.buffers.clone());
    Sides {
        ours: Some(plain(move || {
            ours::coefficients_into(call, &mut our_buffers)
        })),
        rust: Some(plain(move || {
            assert!(first(&orders.store), "a place outside its order");
            run.run(&mut rust_buffers)
        })),
        units: match symbols.len() {
            0 => (1, "call"),
            symbols => (symbols, "symbol"),
        },
    }
}

/// A group without blocks.
fn strip() -> Layout {
    Layout {
        bw: 0,
        bh: 32,
        ..Layout::default()
    }
}

/// A square group filled with the transforms that `transform` names by x.
fn tiled(side: usize, transform: impl Fn(usize) -> u8) -> Layout {
    let mut kinds = vec![0; side * side];
    let mut hf_mul = vec![0; side * side];
    for cell in 0..side * side {
        if kinds[cell] != 0 {
            continue;
        }
        let kind = 2 + transform(cell % side);
        let (wide, high) = paper::kind_sides(kind).expect("a transform");
        for row in 0..high {
            kinds[cell + row * side..][..wide].fill(1);
        }
        (kinds[cell], hf_mul[cell]) = (kind, 5);
    }
    Layout {
        bw: side,
        bh: side,
        kinds,
        hf_mul,
    }
}

/// Whether every stored place is inside its order's size, as fast as the Rust can tell: sides are
/// powers of two, so all of a list's numbers are below one just if their or is.
fn places_inside(store: &Store) -> bool {
    (0..ORDER_COUNT).all(|order| {
        let lists = &store[list_start(order, 0)..list_start(order + 1, 0)];
        let mut or = [0; 16];
        for numbers in lists.chunks_exact(or.len()) {
            or.iter_mut().zip(numbers).for_each(|(or, n)| *or |= n);
        }
        let (width, height) = ORDER_SIZES[order];
        or.chunks_exact(2)
            .all(|place| usize::from(place[0]) < width && usize::from(place[1]) < height)
    })
}
