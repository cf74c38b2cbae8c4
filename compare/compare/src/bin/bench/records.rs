use calls::{AlikeCall, CutCall, FilteredLayout, Layout};
use compare::cases::fill;
use compare::rng::Rng;

use crate::measure::{plain, Sides};
use crate::rows::Bench;

/// The check of a lent layout, by way of a cut: of a group that is the whole layout, and of the
/// largest layout; and likeness, of a layout to itself. The Rust has no such calls.
pub fn benches() -> Vec<Bench> {
    const SIDES: &[usize] = &[32, 256, 256];
    vec![
        cut("cut, 32 x 32 blocks, mixed", || mixed(SIDES, 0)),
        cut("cut, 256 x 256 blocks, mixed", || mixed(SIDES, 1)),
        cut("cut, 256 x 256 blocks, Dct8", || dct8(256)),
        likeness("likeness, 256 x 256 blocks, mixed", || mixed(SIDES, 2)),
    ]
}

/// Layouts of growing sides: the first group is cut, and each is held against itself.
pub fn growth() -> Vec<Bench> {
    const SIDES: &[usize] = &[32, 64, 128, 256];
    let each = || SIDES.iter().enumerate();
    let name = |call: &str, side: usize| format!("{call}, {side} x {side} blocks, mixed");
    let cuts = each().map(|(k, &side)| cut(&name("cut", side), move || mixed(SIDES, k)));
    let alike = each().map(|(k, &side)| likeness(&name("likeness", side), move || mixed(SIDES, k)));
    cuts.chain(alike).collect()
}

/// The k-th of layouts of these sides, drawn one behind the other from one generator.
fn mixed(sides: &[usize], k: usize) -> Layout {
    let mut rng = Rng::new(5);
    let filled = |&side: &usize| fill(&mut rng, side, side, None).layout;
    sides.iter().map(filled).nth(k).expect("a side")
}

fn dct8(side: usize) -> Layout {
    let cells = side * side;
    Layout {
        bw: side,
        bh: side,
        kinds: vec![2; cells],
        hf_mul: vec![1; cells],
    }
}

fn cut(name: &str, layout: impl FnOnce() -> Layout + 'static) -> Bench {
    const GROUP: usize = 32 * 32;
    Bench::new(name, move || {
        let call = CutCall {
            layout: layout(),
            group: 0,
            kinds: vec![0; GROUP],
            hf_mul: vec![0; GROUP],
        };
        let mut buffers = (call.kinds.clone(), call.hf_mul.clone());
        Sides {
            units: (call.layout.blocks(), "block"),
            ours: Some(plain(move || ours::cut_into(&call, &mut buffers))),
            rust: None,
        }
    })
}

/// Filter strengths are all different, so that no two rows of blocks are the same.
fn filtered(layout: Layout) -> FilteredLayout {
    let sigma = (0..layout.blocks())
        .map(|block| 0.5 + block as f32)
        .collect();
    FilteredLayout { layout, sigma }
}

fn likeness(name: &str, layout: impl FnOnce() -> Layout + 'static) -> Bench {
    Bench::new(name, move || {
        let left = filtered(layout());
        let right = left.clone();
        let call = AlikeCall { left, right };
        assert_eq!(ours::alike(&call).answer, Ok(true), "all is looked at");
        Sides {
            units: (call.left.layout.blocks(), "block"),
            ours: Some(plain(move || ours::alike(&call).answer)),
            rust: None,
        }
    })
}
