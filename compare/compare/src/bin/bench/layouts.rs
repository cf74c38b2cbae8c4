use calls::LayoutCall;
use compare::cases::fill;
use compare::make;
use compare::rng::Rng;
use jxl_vardct::oracle::LayoutRun;

use crate::measure::{plain, prepared, Sides};
use crate::rows::Bench;

pub fn benches() -> Vec<Bench> {
    vec![
        bench("layout, 2,048 x 2,048, Dct8, filter on", || dct8(2048)),
        bench("layout, 2,048 x 2,048, mixed, filter on", || mixed(2048)),
        bench("layout, 256 x 256, mixed, filter on", || mixed(256)),
        bench("layout, 0 x 2,048, no blocks", strip),
    ]
}

/// Mixed layouts of growing sides.
pub fn growth() -> Vec<Bench> {
    let sides = [(256, "256"), (512, "512"), (1024, "1,024"), (2048, "2,048")];
    let row = |(side, shown): (u32, &str)| {
        let name = format!("layout, {shown} x {shown}, mixed, filter on");
        bench(&name, move || mixed(side))
    };
    sides.into_iter().map(row).collect()
}

fn bench(name: &str, call: impl FnOnce() -> LayoutCall + 'static) -> Bench {
    Bench::new(name, move || sides(call()))
}

fn sides(call: LayoutCall) -> Sides {
    let call: &'static LayoutCall = Box::leak(Box::new(call));
    let mut buffers = call.buffers.clone();
    Sides {
        ours: Some(plain(move || ours::layout_into(call, &mut buffers))),
        rust: Some(prepared(
            || LayoutRun::new(call, call.types.len()),
            |run| run.run(),
        )),
        units: match call.sharpness.len() {
            0 => (1, "call"),
            blocks => (blocks, "block"),
        },
    }
}

/// An LF group without blocks, and the one column that its column count tells.
fn strip() -> LayoutCall {
    filtered(make::layout(0, 2048, &[(0, 0)]))
}

fn dct8(side: u32) -> LayoutCall {
    let blocks = (side / 8 * (side / 8)) as usize;
    let muls = (0..blocks).map(|block| (0, block as i32 % 200));
    filtered(make::layout(side, side, &muls.collect::<Vec<_>>()))
}

fn mixed(side: u32) -> LayoutCall {
    let blocks = (side / 8) as usize;
    let columns = fill(&mut Rng::new(7), blocks, blocks, None).columns;
    filtered(make::layout(side, side, &columns))
}

/// The call with its filter on, and some sharpness for each block.
pub fn filtered(mut call: LayoutCall) -> LayoutCall {
    let mut rng = Rng::new(9);
    call.filter = Some(0.46);
    call.lookup = std::array::from_fn(|k| k as f32 / 7.0);
    call.scale = 5461;
    for sharpness in &mut call.sharpness {
        *sharpness = rng.below(8) as i32;
    }
    call
}
