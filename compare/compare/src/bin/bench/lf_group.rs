//! A whole LF group, as its user reads it: layout with the filter on, contexts, orders, and for each
//! pass group its cut and its coefficients.

use calls::{LfGroupCall, LfGroupOutput, ORDER_SIZES};
use compare::cases::fill;
use compare::make;
use compare::rng::Rng;
use jxl_vardct::oracle::LfGroupRun;
use ours::{CutOf, LfGroupBuffers};

use crate::measure::{plain, prepared, Sides};
use crate::rows::Bench;
use crate::{contexts, layouts};

pub fn benches() -> Vec<Bench> {
    let bench = |name, cut_of| Bench::new(name, move || sides(call(2048, 2048), cut_of));
    vec![
        bench("LF group, 2,048 x 2,048, all calls", CutOf::Layout),
        bench("LF group, 2,048 x 2,048, cut by rows", CutOf::Rows),
    ]
}

/// The Rust has no cut: its pass groups are views of the whole layout.
fn sides(call: LfGroupCall, cut_of: CutOf) -> Sides {
    let call: &'static LfGroupCall = Box::leak(Box::new(call));
    let mut buffers = LfGroupBuffers::new(call, cut_of);
    let (mut our_output, mut rust_output) =
        (LfGroupOutput::zeros(call), LfGroupOutput::zeros(call));
    Sides {
        ours: Some(plain(move || buffers.run(call, &mut our_output))),
        rust: Some(prepared(
            || LfGroupRun::new(call),
            move |run| run.run(&mut rust_output),
        )),
        units: (call.layout.sharpness.len(), "block"),
    }
}

/// An LF group of so many pixels: varblocks of all sizes, thresholds on all lists of its contexts,
/// orders 0, 1 and 4 permuted.
fn call(width: u32, height: u32) -> LfGroupCall {
    let mut rng = Rng::new(7);
    let (bw, bh) = (width.div_ceil(8) as usize, height.div_ceil(8) as usize);
    let filled = fill(&mut rng, bw, bh, None);
    let contexts = contexts::all_lists();
    let clusters = contexts.count as usize;
    let mut call = LfGroupCall {
        layout: layouts::filtered(make::layout(width, height, &filled.columns)),
        contexts,
        orders: make::orders(0b10011, &digits(&mut rng, &[0, 1, 4])),
        lf: std::array::from_fn(|_| (0..bw * bh).map(|_| lf_number(&mut rng)).collect()),
        cluster_map: rng.bytes(paper::ENTRIES_PER_CLUSTER * clusters),
        symbols: Vec::new(),
    };
    let groups = call.groups();
    let corners = groups.iter().map(|group| {
        let rows = group.rows.clone();
        rows.flat_map(|row| &filled.layout.kinds[row * bw..][group.columns.clone()])
    });
    call.symbols = corners.map(|kinds| symbols(&mut rng, kinds)).collect();
    call
}

/// Around the thresholds, which are 8, -17 and 25.
fn lf_number(rng: &mut Rng) -> i32 {
    rng.below(121) as i32 - 60
}

/// For each list of the given orders as many digits as half of its numbers, all of them small.
fn digits(rng: &mut Rng, orders: &[usize]) -> Vec<u32> {
    let mut symbols = Vec::new();
    for list in orders.iter().flat_map(|&order| [order; 3]) {
        let (width, height) = ORDER_SIZES[list];
        let length = width * height / 2;
        symbols.push(length as u32);
        symbols.extend((0..length).map(|_| rng.below(8) as u32));
    }
    symbols
}

/// Symbols of a pass group of which the kinds are given, of the shape that photographs have: most
/// coefficients that are not 0 are in channel 1, among the first places, and small; large varblocks
/// have less detail.
fn symbols<'a>(rng: &mut Rng, kinds: impl Iterator<Item = &'a u8>) -> Vec<u32> {
    let mut symbols = Vec::new();
    for (wide, high) in kinds.filter_map(|&kind| paper::kind_sides(kind)) {
        let blocks = wide * high;
        let detail = rng.pick(&[0.1, 0.4, 0.6, 0.8, 1.0]) / (1.0 + blocks.ilog2() as f64 / 4.0);
        for (first, further) in [(0.9, 0.94), (0.4, 0.85), (0.4, 0.85)] {
            let places = places(rng, blocks, detail, (first, further));
            let count = places.iter().filter(|&&symbol| symbol != 0).count();
            let end = places.iter().rposition(|&symbol| symbol != 0);
            symbols.push(count as u32);
            symbols.extend(&places[..end.map_or(0, |last| last + 1)]);
        }
    }
    symbols
}

/// A channel's places: how likely the first is not 0, and each further one as against it, both by
/// the varblock's detail, which also says up to where there is something at all.
fn places(rng: &mut Rng, blocks: usize, detail: f64, (first, further): (f64, f64)) -> Vec<u32> {
    let likely = |place: usize| detail * first * f64::powi(further, (place / blocks) as i32);
    let last = (63.0 * detail * blocks as f64) as usize;
    let places = (0..63 * blocks).take(last);
    places
        .map(|place| coefficient(rng, likely(place)))
        .collect()
}

/// A symbol that is not 0 as likely as told.
fn coefficient(rng: &mut Rng, likely: f64) -> u32 {
    if f64::from(rng.next_u32()) >= likely * f64::from(u32::MAX) {
        return 0;
    }
    match rng.below(8) {
        0 => rng.between(1, 40) as u32,
        1 | 2 => rng.between(3, 6) as u32,
        _ => rng.between(1, 2) as u32,
    }
}

#[cfg(test)]
mod tests {
    use super::*;

    #[test]
    fn both_sides_fill_the_same_grids() {
        let call = call(600, 300);
        assert_eq!(call.groups().len(), 6);
        let mut rust = LfGroupOutput::zeros(&call);
        let read = LfGroupRun::new(&call).run(&mut rust);
        assert_eq!(read, Ok(call.symbols.iter().map(Vec::len).sum()));
        let cells = rust.grids.iter().flatten().flatten();
        assert!(cells.filter(|&&cell| cell != 0).count() > 10_000);
        for cut_of in [CutOf::Layout, CutOf::Rows] {
            let mut ours = LfGroupOutput::zeros(&call);
            assert_eq!(
                LfGroupBuffers::new(&call, cut_of).run(&call, &mut ours),
                read
            );
            assert!(ours == rust, "grids or logs differ, cut of {cut_of:?}");
        }
    }

    /// Every width and height of 0 to 3 blocks, and some of more pass groups. Those of no blocks have
    /// no pass groups: layout, contexts and orders are read, and no symbol.
    #[test]
    fn both_sides_agree_on_small_lf_groups_and_strips() {
        let small = (0..4).flat_map(|x| (0..4).map(move |y| (8 * x, 8 * y)));
        let sides = small.chain([(0, 300), (600, 0), (2048, 0), (0, 2048), (264, 8), (3, 257)]);
        for (width, height) in sides {
            let call = call(width, height);
            let is_strip = width == 0 || height == 0;
            assert_eq!(call.groups().is_empty(), is_strip);
            let mut rust = LfGroupOutput::zeros(&call);
            let read = LfGroupRun::new(&call).run(&mut rust);
            assert!(read.is_ok_and(|read| (read == 0) == is_strip));
            for cut_of in [CutOf::Layout, CutOf::Rows] {
                let mut ours = LfGroupOutput::zeros(&call);
                let answer = LfGroupBuffers::new(&call, cut_of).run(&call, &mut ours);
                assert!(
                    (answer, &ours) == (read, &rust),
                    "{width} x {height}, {cut_of:?}"
                );
            }
        }
    }

    #[test]
    fn a_fifth_of_the_symbols_is_not_0() {
        let call = call(1024, 1024);
        let blocks = call.layout.sharpness.len();
        let all = call.symbols.iter().flatten();
        let symbols = all.clone().count() / blocks;
        let filled = all.filter(|&&symbol| symbol != 0).count() / blocks;
        assert!((35..50).contains(&symbols), "{symbols} symbols a block");
        assert!((7..10).contains(&filled), "{filled} a block are not 0");
    }
}
