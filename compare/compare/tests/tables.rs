//! The tables that the model of the paper has for itself are the Rust's, and so are its layouts.
#![cfg(live)]

use calls::{list_length, list_start, ORDER_COUNT, ORDER_SIZES};
use compare::cases::{Case, LayoutCase};
use compare::rng::Rng;
use compare::{expected, make};
use jxl_vardct::oracle;

#[test]
fn what_the_transforms_carry() {
    for number in 0..27 {
        let transform = oracle::transform(number).expect("a transform");
        let sides = (transform.wide, transform.high);
        assert_eq!(paper::kind_sides(number + 2), Some(sides));
        assert_eq!(paper::transform(number), Some(transform));
    }
    assert_eq!((paper::kind_sides(29), paper::transform(27)), (None, None));
}

#[test]
fn sizes_of_the_orders() {
    let store = expected::orders(&make::orders(0, &[])).buffers;
    for (order, (width, height)) in ORDER_SIZES.into_iter().enumerate().take(ORDER_COUNT) {
        for channel in 0..3 {
            let list = &store[list_start(order, channel)..][..list_length(order)];
            let mut places: Vec<_> = list.chunks(2).map(|place| (place[1], place[0])).collect();
            places.sort_unstable();
            let rows = (0..height as u16).flat_map(|y| (0..width as u16).map(move |x| (y, x)));
            assert!(places.into_iter().eq(rows), "order {order}");
        }
    }
}

/// What docs/DIFFERENCES.md says of the Rust, which the comparison no longer lends such types.
#[test]
fn the_rust_looks_at_the_low_eight_bits() {
    let answer = |column| oracle::layout(&make::layout(8, 8, &[column])).answer;
    let number = |column| answer(column).map_err(|refusal| refusal.number);
    assert_eq!((number((256, 0)), number((-256, 0))), (Ok(1), Ok(1)));
    assert_eq!((number((-1, 0)), number((-256, -1))), (Err(5), Err(6)));
}

/// The model is asked for layouts whose types are not 0 to 255; where they are, the Rust shows that it
/// is right.
#[test]
fn layouts_of_types_up_to_255() {
    let mut rng = Rng::new(1);
    let short = (0..LayoutCase.short_count()).step_by(997);
    let inputs = short.map(|number| LayoutCase.short(number));
    let random = std::iter::repeat_with(|| LayoutCase.random(&mut rng)).take(20_000);
    let mut compared = 0;
    for mut call in inputs.chain(random) {
        for number in &mut call.types {
            *number &= 0xff;
        }
        if paper::layout_before_work(&call).is_none() {
            assert!(paper::layout(&call) == oracle::layout(&call), "{call:?}");
            compared += 1;
        }
    }
    assert!(compared > 20_000);
}
