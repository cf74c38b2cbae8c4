//! From a scan's columns to its coefficients, 16 x 16 pixels: the same path as examples/c.
//!
//! `cargo run --release --example path` (in bindings/rust, once `.ci/archive` has been run).

use netbuff::{
    coefficients, column_count, BlockContexts, CoefficientInput, Columns, GridsBuf, LayoutBuf,
    LayoutInput, LfGroup, OrdersBuf, Presets, Refusal,
};

fn main() -> Result<(), Refusal> {
    // How many columns the scan has; they are decoded by the caller.
    let scan = LfGroup::new(16, 16);
    let columns = column_count(&[2], scan)?;
    println!(
        "columns: {}, {} bits read",
        columns.count, columns.bits_read
    );

    // Columns to varblocks: one Dct16x8 and two Dct8. The filter is off.
    let columns = Columns {
        types: &[6, 0, 0],
        muls: &[4, 0, 2],
    };
    let sharpness = vec![0; scan.sides().blocks()];
    let layout = LayoutBuf::read(&LayoutInput::unfiltered(scan, columns, &sharpness))?;
    for varblock in layout.layout().varblocks() {
        println!(
            "varblock at {} {}: type {}, hf_mul {}",
            varblock.x, varblock.y, varblock.transform, varblock.hf_mul
        );
    }

    // Coefficients are read group by group; this layout is one group.
    let group = layout.layout().cut(0)?;
    println!("group 0: {} x {} blocks", group.sides.bw, group.sides.bh);

    // What all groups share: block contexts, orders, and a preset whose clusters are all 0.
    let contexts = BlockContexts::standard();
    let orders = OrdersBuf::natural();
    let cluster_map = vec![0; Presets::map_length(&contexts, 1)];

    // One coefficient in channel 1 of the first varblock, and a count of 0 for each other channel.
    let input = CoefficientInput {
        group: group.group(),
        contexts: &contexts,
        lf: None,
        orders: orders.orders(),
        presets: Presets {
            count: 1,
            cluster_map: &cluster_map,
        },
        shift: 0,
        bytes: &[],
        symbols: &[1, 3, 0, 0, 0, 0, 0, 0, 0, 0],
    };
    let mut grids = GridsBuf::zero(group.sides);
    let mut log = vec![0; group.sides.log_length()];
    let read = coefficients(&input, grids.lend(&mut log))?;
    let cell = grids.at(1, 1, 0);
    println!("coefficients: {read} symbols read, channel 1 at (1,0) holds {cell}");
    assert_eq!((read, cell), (10, -2));
    Ok(())
}
