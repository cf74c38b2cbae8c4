//! Groups and layouts of width or height 0, which have no blocks: what each call does with them, and
//! that all else is judged as for others.

use netbuff::*;

const SIDES: [Sides; 5] = [
    sides(0, 0),
    sides(0, 3),
    sides(5, 0),
    sides(0, 256),
    sides(256, 0),
];
const ONE: FilteredLayout = FilteredLayout {
    layout: Layout {
        sides: sides(1, 1),
        kinds: &[2],
        hf_mul: &[1],
    },
    sigma: &[0.0],
};

const fn sides(bw: usize, bh: usize) -> Sides {
    Sides { bw, bh }
}

/// An empty layout.
fn layout_of(sides: Sides) -> FilteredLayout<'static> {
    let (kinds, hf_mul) = (&[], &[]);
    let layout = Layout {
        sides,
        kinds,
        hf_mul,
    };
    FilteredLayout { layout, sigma: &[] }
}

fn with_modes(width: u32, height: u32, modes: [u32; 3]) -> LfGroup {
    let group = LfGroup::new(width, height);
    LfGroup { modes, ..group }
}

#[test]
fn the_column_count_is_1_of_no_bits() {
    let none = Ok(ColumnCount {
        count: 1,
        bits_read: 0,
    });
    for (width, height) in [(0, 17), (17, 0), (0, 0), (0, 2048), (2048, 0)] {
        for bytes in [&[][..], &[255; 4]] {
            let group = LfGroup::new(width, height);
            assert_eq!(column_count(bytes, group), none, "{group:?}");
            let halved = with_modes(width, height, [1, 2, 3]);
            assert_eq!(column_count(bytes, halved), none, "{halved:?}");
        }
    }
    for (width, height) in [(0, 2049), (2049, 0), (u32::MAX, 0)] {
        let group = LfGroup::new(width, height);
        assert_eq!(column_count(&[0; 4], group), Err(Refusal::Size));
    }
    let wrong = with_modes(0, 17, [0, 0, 4]);
    assert_eq!(column_count(&[], wrong), Err(Refusal::Parameter));
}

/// A layout call whose lists have so many elements: types, muls, sharpness, kinds, hf_mul, sigma.
fn lay_out(group: LfGroup, filter: Filter, scale: u32, lengths: [usize; 6]) -> Result<usize> {
    // No column that a block would take.
    let (types, muls) = (vec![99; lengths[0]], vec![-7; lengths[1]]);
    let sharpness = vec![8; lengths[2]];
    let (mut kinds, mut hf_mul) = (vec![77; lengths[3]], vec![77; lengths[4]]);
    let mut sigma = vec![0.5; lengths[5]];
    let input = LayoutInput {
        group,
        columns: Columns {
            types: &types,
            muls: &muls,
        },
        sharpness: &sharpness,
        filter,
        lookup: &[1.0; 8],
        scale,
    };
    let output = LayoutMut {
        kinds: &mut kinds,
        hf_mul: &mut hf_mul,
        sigma: &mut sigma,
    };
    let misfit = input.misfit(&output);
    let answer = layout(&input, output);
    assert_eq!(misfit.is_some(), answer == Err(Refusal::Length));
    assert!(kinds.iter().all(|&kind| kind == 77) && hf_mul.iter().all(|&mul| mul == 77));
    assert!(sigma.iter().all(|&strength| strength == 0.5));
    answer
}

#[test]
fn a_layout_uses_no_column() {
    let group = LfGroup::new(0, 17);
    for columns in [0, 1, 5] {
        for filter in [Filter::Off, Filter::On(0.5)] {
            let lengths = [columns, columns, 0, 0, 0, 0];
            assert_eq!(lay_out(group, filter, 1, lengths), Ok(0));
        }
    }
    let types = [99, 0];
    let muls = [-7, 0];
    let columns = Columns {
        types: &types,
        muls: &muls,
    };
    let read = LayoutBuf::read(&LayoutInput::unfiltered(group, columns, &[])).expect("a layout");
    assert_eq!((read.sides, read.columns_used), (sides(0, 3), 0));
    assert_eq!(read.layout().varblocks().count(), 0);
    assert_eq!(alike(read.filtered(), read.filtered()), Ok(true));
}

#[test]
fn making_even_leaves_0_at_0() {
    for (modes, height) in [([0; 3], 1), ([1, 0, 0], 2), ([0, 2, 0], 1), ([0, 0, 3], 2)] {
        assert_eq!(with_modes(0, 8, modes).sides(), sides(0, height));
    }
    for (modes, width) in [([0; 3], 1), ([1, 0, 0], 2), ([0, 2, 0], 2), ([0, 0, 3], 1)] {
        assert_eq!(with_modes(8, 0, modes).sides(), sides(width, 0));
    }
    let halved = with_modes(0, 8, [0, 1, 0]);
    assert_eq!(lay_out(halved, Filter::Off, 1, [0; 6]), Ok(0));
}

#[test]
fn sizes_parameters_and_lengths_of_a_layout_are_judged() {
    let off = Filter::Off;
    for (width, height) in [(0, 2049), (2049, 0), (0, u32::MAX)] {
        let group = LfGroup::new(width, height);
        assert_eq!(group.sides(), sides(0, 0));
        let refused = Err(Refusal::Size);
        assert_eq!(lay_out(group, off, 1, [0; 6]), refused, "{group:?}");
    }
    let group = LfGroup::new(0, 17);
    for (group, filter, scale) in [
        (with_modes(0, 17, [4, 0, 0]), off, 1),
        (group, off, 0),
        (group, off, 73_729),
        (group, Filter::On(f32::NAN), 1),
        (group, Filter::On(65_505.0), 1),
    ] {
        let refused = lay_out(group, filter, scale, [0; 6]);
        assert_eq!(refused, Err(Refusal::Parameter), "{group:?} {filter:?}");
    }
    for list in 0..6 {
        let mut lengths = [0; 6];
        lengths[list] = 1;
        let refused = lay_out(group, off, 1, lengths);
        assert_eq!(refused, Err(Refusal::Length), "{list}");
    }
}

#[test]
fn a_layout_has_no_pass_group() {
    for sides in SIDES {
        let layout = layout_of(sides).layout;
        assert_eq!(layout.groups(), 0);
        for index in [0, 1, 8, usize::MAX] {
            assert_eq!(layout.group_at(index), None);
            assert!(layout.rows_of(index).is_none());
            assert_eq!(layout.cut(index), Err(Refusal::Size), "{sides:?}");
            // Before lengths that do not fit.
            let unfit = Layout {
                kinds: &[2],
                ..layout
            };
            let (mut kinds, mut hf_mul) = ([77; 3], [77]);
            let output = GroupMut {
                kinds: &mut kinds,
                hf_mul: &mut hf_mul,
            };
            assert_eq!(cut(unfit, index, output), Err(Refusal::Size));
            assert_eq!((kinds, hf_mul), ([77; 3], [77]));
        }
    }
    for outside in [sides(0, 257), sides(257, 0)] {
        let layout = layout_of(outside).layout;
        assert_eq!(layout.cut(0), Err(Refusal::Size));
    }
}

/// Both ways round.
fn alike_try(left: FilteredLayout, right: FilteredLayout) -> Result<bool> {
    let answer = alike(left, right);
    assert_eq!(alike(right, left), answer);
    answer
}

#[test]
fn two_layouts_are_alike_whatever_their_sides() {
    for left in SIDES {
        for right in SIDES {
            let answer = alike_try(layout_of(left), layout_of(right));
            assert_eq!(answer, Ok(true), "{left:?} {right:?}");
        }
        assert_eq!(alike_try(layout_of(left), ONE), Ok(false), "{left:?}");
    }
}

#[test]
fn sides_strengths_and_lengths_of_a_layout_are_judged_for_likeness() {
    let empty = layout_of(sides(0, 3));
    for outside in [sides(0, 257), sides(257, 0), sides(0, usize::MAX)] {
        let refused = alike_try(empty, layout_of(outside));
        assert_eq!(refused, Err(Refusal::Size), "{outside:?}");
    }
    let of = |sigma| FilteredLayout { sigma, ..empty };
    for (sigma, refusal) in [
        (&[f32::NAN], Refusal::Parameter),
        (&[f32::INFINITY], Refusal::Parameter),
        (&[0.0], Refusal::Length),
    ] {
        assert_eq!(of(sigma).misfit(), Some("sigma"));
        assert_eq!(alike_try(empty, of(sigma)), Err(refusal));
        assert_eq!(alike_try(ONE, of(sigma)), Err(refusal));
    }
    for (kinds, hf_mul) in [(&[2][..], &[][..]), (&[], &[1])] {
        let layout = Layout {
            kinds,
            hf_mul,
            ..empty.layout
        };
        let unfit = FilteredLayout { layout, ..empty };
        assert_eq!(alike_try(empty, unfit), Err(Refusal::Length));
    }
}

/// A coefficient call over an empty group with everything fitting, to be put out of order.
struct GroupTry {
    sides: Sides,
    kinds: Vec<u8>,
    hf_mul: Vec<i32>,
    contexts: BlockContexts,
    lf: Option<[Vec<i32>; 3]>,
    store: Box<[u16]>,
    presets: u32,
    map_of: u32,
    shift: u32,
    bytes: Vec<u8>,
    grids: [usize; 3],
    log: usize,
}

impl GroupTry {
    fn new(presets: u32, bytes: &[u8]) -> Self {
        Self {
            sides: sides(0, 32),
            kinds: vec![],
            hf_mul: vec![],
            contexts: BlockContexts::standard(),
            lf: None,
            store: OrdersBuf::natural().store,
            presets,
            map_of: presets,
            shift: 3,
            bytes: bytes.to_vec(),
            grids: [0; 3],
            log: 5,
        }
    }

    /// The answer; nothing is written in any case. The symbols are there to be left.
    fn read(&self) -> Result<usize> {
        let mut grids = self.grids.map(|length| vec![77; length]);
        let mut log = vec![77; self.log];
        let cluster_map = vec![3; Presets::map_length(&self.contexts, self.map_of)];
        let input = CoefficientInput {
            group: Group {
                sides: self.sides,
                kinds: &self.kinds,
                hf_mul: &self.hf_mul,
            },
            contexts: &self.contexts,
            lf: self.lf.as_ref().map(|lf| LfGrids {
                channels: lf.each_ref().map(Vec::as_slice),
            }),
            orders: Orders { store: &self.store },
            presets: Presets {
                count: self.presets,
                cluster_map: &cluster_map,
            },
            shift: self.shift,
            bytes: &self.bytes,
            symbols: &[1, 3, 0, 0],
        };
        let output = CoefficientMut {
            grids: grids.each_mut().map(Vec::as_mut_slice),
            log: &mut log,
        };
        let answer = coefficients(&input, output);
        assert!(grids.iter().flatten().all(|&cell| cell == 77));
        assert!(log.iter().all(|&cluster| cluster == 77));
        answer
    }
}

#[test]
fn a_pass_group_reads_its_preset_and_no_symbol() {
    for (bw, bh) in [(0, 0), (0, 1), (1, 0), (0, 32), (32, 0)] {
        for log in [0, 5] {
            let mut call = GroupTry::new(1, &[]);
            (call.sides, call.log) = (sides(bw, bh), log);
            assert_eq!(call.read(), Ok(0));
            call.lf = Some([vec![], vec![], vec![]]);
            assert_eq!(call.read(), Ok(0));
        }
    }
    let read = |presets, bytes: &[u8]| GroupTry::new(presets, bytes).read();
    assert_eq!(read(2, &[1]), Ok(0));
    assert_eq!(read(3, &[2]), Ok(0));
    assert_eq!(read(2, &[]), Err(Refusal::BitsEnd { bits_read: 0 }));
    assert_eq!(read(3, &[3]), Err(Refusal::Preset { bits_read: 2 }));
    assert_eq!(read(0, &[]), Err(Refusal::Preset { bits_read: 0 }));
}

#[test]
fn all_else_of_a_pass_group_is_judged() {
    let tried = |spoil: fn(&mut GroupTry)| {
        let mut call = GroupTry::new(2, &[]);
        spoil(&mut call);
        call.read().expect_err("a refusal")
    };
    assert_eq!(tried(|call| call.sides.bh = 33), Refusal::Size);
    assert_eq!(tried(|call| call.sides = sides(33, 0)), Refusal::Size);
    assert_eq!(tried(|call| call.shift = 4), Refusal::Parameter);
    assert_eq!(tried(|call| call.presets = 257), Refusal::Parameter);
    let unfit = tried(|call| call.contexts = BlockContexts::ZERO);
    assert_eq!(unfit, Refusal::Context);
    let lengths: [fn(&mut GroupTry); 9] = [
        |call| call.kinds.push(2),
        |call| call.hf_mul.push(1),
        |call| call.lf = Some([vec![0], vec![], vec![]]),
        |call| call.lf = Some([vec![], vec![], vec![0]]),
        |call| call.store = vec![0; 2].into(),
        |call| call.map_of = 1,
        |call| call.grids[0] = 1,
        |call| call.grids[1] = 64,
        |call| call.grids[2] = 1,
    ];
    for spoil in lengths {
        assert_eq!(tried(spoil), Refusal::Length);
    }
    assert_eq!(tried(|call| call.store[1] = 8), Refusal::StoredPlace);
    assert_eq!(tried(|_| ()), Refusal::BitsEnd { bits_read: 0 });
}

#[test]
fn grids_of_no_blocks_have_no_cells() {
    for sides in SIDES {
        let grids = GridsBuf::zero(sides);
        assert!(grids.channels.iter().all(Vec::is_empty));
        assert_eq!(
            (sides.blocks(), sides.cells(), sides.log_length()),
            (0, 0, 0)
        );
    }
}
