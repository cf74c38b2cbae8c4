//! Every refusal that each call can meet, with its position, and what then stays in lent memory.

use netbuff::*;

/// What lent memory holds before a call.
const KIND: u8 = 0xa5;
const NUMBER: i32 = 0x0bad_cafe;
const STRENGTH: f32 = -1.5;

/// A list that does not fit is named beside `Length`, and none where later refusals or a result come.
fn named<T>(answer: &Result<T>, misfit: Option<&str>) {
    match answer {
        Err(Refusal::Size | Refusal::Parameter | Refusal::Context) => {}
        Err(Refusal::Length) => assert!(misfit.is_some()),
        _ => assert_eq!(misfit, None),
    }
}

/// A layout call over columns, with everything else at rest.
struct LayoutTry {
    group: LfGroup,
    types: Vec<i32>,
    muls: Vec<i32>,
    sharpness: Vec<i32>,
    filter: Filter,
    lookup: [f32; 8],
    scale: u32,
    lengths: [usize; 3],
}

impl LayoutTry {
    fn new(width: u32, height: u32, columns: &[(i32, i32)]) -> Self {
        let group = LfGroup::new(width, height);
        let blocks = group.sides().blocks();
        Self {
            group,
            types: columns.iter().map(|column| column.0).collect(),
            muls: columns.iter().map(|column| column.1).collect(),
            sharpness: vec![0; blocks],
            filter: Filter::Off,
            lookup: [0.0; 8],
            scale: 1,
            lengths: [blocks; 3],
        }
    }

    /// The answer, and whether the three lists were left as they were or are all zero.
    fn refused(&self) -> (Refusal, &'static str) {
        let mut kinds = vec![KIND; self.lengths[0]];
        let mut hf_mul = vec![NUMBER; self.lengths[1]];
        let mut sigma = vec![STRENGTH; self.lengths[2]];
        let input = LayoutInput {
            group: self.group,
            columns: Columns {
                types: &self.types,
                muls: &self.muls,
            },
            sharpness: &self.sharpness,
            filter: self.filter,
            lookup: &self.lookup,
            scale: self.scale,
        };
        let output = LayoutMut {
            kinds: &mut kinds,
            hf_mul: &mut hf_mul,
            sigma: &mut sigma,
        };
        let misfit = input.misfit(&output);
        let answer = layout(&input, output);
        named(&answer, misfit);
        let refusal = answer.expect_err("a refusal");
        let hold = |kind, number, strength: f32| {
            kinds.iter().all(|&k| k == kind)
                && hf_mul.iter().all(|&n| n == number)
                && sigma.iter().all(|s| s.to_bits() == strength.to_bits())
        };
        let left = match (hold(KIND, NUMBER, STRENGTH), hold(0, 0, 0.0)) {
            (true, _) => "untouched",
            (_, true) => "zero",
            _ => "something else",
        };
        (refusal, left)
    }
}

#[test]
fn transforms_above_26_are_unknown() {
    for number in [27, 28, u32::MAX] {
        assert_eq!(transform(number), Err(Refusal::Transform { x: 0, y: 0 }));
    }
}

#[test]
fn bits_end() {
    let (start, late) = (Place { byte: 0, bit: 5 }, Place { byte: 9, bit: 9 });
    let field = Choice { offset: 0, bits: 4 };
    let refusals = [
        (read_bits(&[0], start, 4).err(), 0),
        (read_bits(&[0], late, 1).err(), 0),
        (read_u32(&[0], start, [field; 4]).err(), 2),
        (read_u32(&[], start, [field; 4]).err(), 0),
        (column_count(&[], LfGroup::new(16, 16)).err(), 0),
        (OrdersBuf::read(&[], &[]).err(), 0),
        (OrdersBuf::read(&[3], &[]).err(), 2),
    ];
    for (refusal, bits_read) in refusals {
        assert_eq!(refusal, Some(Refusal::BitsEnd { bits_read }));
    }
}

#[test]
fn sizes_and_limits_come_before_lengths_and_write_nothing() {
    for (width, height) in [(0, 2049), (u32::MAX, 0), (2049, 8), (8, u32::MAX)] {
        let wrong = LayoutTry {
            scale: 0,
            lengths: [3; 3],
            ..LayoutTry::new(width, height, &[])
        };
        assert_eq!(wrong.refused(), (Refusal::Size, "untouched"));
        assert_eq!(column_count(&[0; 8], wrong.group), Err(Refusal::Size));
    }
    let right = || LayoutTry::new(8, 8, &[(0, 0)]);
    let mut limits = Vec::new();
    for scale in [0, 73_729] {
        limits.push(LayoutTry { scale, ..right() });
    }
    for number in [65_505.0, -65_505.0, f32::NAN, f32::INFINITY] {
        let filter = Filter::On(number);
        limits.push(LayoutTry { filter, ..right() });
        let lookup = [0.0, 0.0, 0.0, 0.0, 0.0, 0.0, 0.0, number];
        limits.push(LayoutTry { lookup, ..right() });
    }
    let mut modes = right();
    modes.group.modes[2] = 4;
    assert_eq!(column_count(&[0; 8], modes.group), Err(Refusal::Parameter));
    limits.push(modes);
    for mut wrong in limits {
        wrong.lengths = [7; 3];
        assert_eq!(wrong.refused(), (Refusal::Parameter, "untouched"));
    }
}

#[test]
fn lengths_that_do_not_fit_write_nothing() {
    let right = || LayoutTry::new(16, 16, &[(4, 0)]);
    for list in 0..3 {
        for length in [0, 3, 5] {
            let mut wrong = right();
            wrong.lengths[list] = length;
            assert_eq!(wrong.refused(), (Refusal::Length, "untouched"));
        }
    }
    let sharpness = vec![0; 3];
    let wrong = LayoutTry {
        sharpness,
        ..right()
    };
    assert_eq!(wrong.refused(), (Refusal::Length, "untouched"));
    let wrong = LayoutTry {
        muls: vec![],
        ..right()
    };
    assert_eq!(wrong.refused(), (Refusal::Length, "untouched"));
}

#[test]
fn columns_that_are_refused_leave_zeros() {
    let mut wide = vec![(0, 0); 31];
    wide.push((7, 0));
    let mut sharp = LayoutTry::new(16, 8, &[(0, 0), (0, 0)]);
    sharp.filter = Filter::On(0.5);
    sharp.sharpness = vec![7, 8];
    let tries = [
        (
            LayoutTry::new(16, 8, &[(0, 0)]),
            Refusal::ColumnsEnd { x: 1, y: 0 },
        ),
        (
            LayoutTry::new(8, 8, &[(27, 0)]),
            Refusal::Transform { x: 0, y: 0 },
        ),
        (
            LayoutTry::new(16, 8, &[(0, 0), (256, 0)]),
            Refusal::Transform { x: 1, y: 0 },
        ),
        (
            LayoutTry::new(8, 8, &[(-256, -1)]),
            Refusal::Transform { x: 0, y: 0 },
        ),
        (
            LayoutTry::new(8, 8, &[(0, -1)]),
            Refusal::HfMul { x: 0, y: 0 },
        ),
        (
            LayoutTry::new(8, 8, &[(0, i32::MAX)]),
            Refusal::HfMul { x: 0, y: 0 },
        ),
        (
            LayoutTry::new(272, 8, &wide),
            Refusal::Border { x: 31, y: 0 },
        ),
        (
            LayoutTry::new(16, 16, &[(0, 0), (6, 0), (7, 0)]),
            Refusal::Overlap { x: 0, y: 1 },
        ),
        (
            LayoutTry::new(8, 8, &[(4, 0)]),
            Refusal::Outside { x: 0, y: 0 },
        ),
        (sharp, Refusal::Sharpness { x: 1, y: 0 }),
    ];
    for (wrong, refusal) in tries {
        assert_eq!(wrong.refused(), (refusal, "zero"));
    }
}

/// A cut of two blocks, one varblock of type 7, into lists of so many places.
fn cut_try(layout: Layout, index: usize, lengths: [usize; 2]) -> Result<Sides> {
    let (mut kinds, mut hf_mul) = (vec![KIND; lengths[0]], vec![NUMBER; lengths[1]]);
    let output = GroupMut {
        kinds: &mut kinds,
        hf_mul: &mut hf_mul,
    };
    let answer = cut(layout, index, output);
    if answer.is_err() {
        assert!(kinds.iter().all(|&k| k == KIND) && hf_mul.iter().all(|&n| n == NUMBER));
    }
    answer
}

/// What refusal 18 is for, of two blocks beside each other.
const NO_LAYOUTS: [(&[u8], &[i32]); 6] = [
    (&[2, 0], &[1, 0]),  // a free cell
    (&[2, 1], &[1, 0]),  // a cell in no rectangle
    (&[2, 9], &[1, 1]),  // a rectangle that leaves the grid
    (&[2, 29], &[1, 1]), // a kind above 28
    (&[9, 1], &[0, 0]),  // hf_mul below 1 at a corner
    (&[9, 1], &[1, 1]),  // hf_mul not 0 elsewhere
];
const TWO: Sides = Sides { bw: 2, bh: 1 };
const WIDE: Layout = Layout {
    sides: TWO,
    kinds: &[9, 1],
    hf_mul: &[1, 0],
};

#[test]
fn cut_refuses_what_is_no_layout() {
    assert_eq!(cut_try(WIDE, 0, [2, 2]), Ok(TWO));
    assert_eq!(cut_try(WIDE, 1, [2, 2]), Err(Refusal::Size));
    assert_eq!(cut_try(WIDE, 0, [1, 2]), Err(Refusal::Length));
    assert_eq!(cut_try(WIDE, 0, [2, 3]), Err(Refusal::Length));
    for (kinds, hf_mul) in NO_LAYOUTS {
        let wrong = Layout {
            sides: TWO,
            kinds,
            hf_mul,
        };
        assert_eq!(cut_try(wrong, 0, [2, 2]), Err(Refusal::Layout));
    }
    for (bw, bh) in [(257, 1), (usize::MAX, 1), (0, 257), (257, 0)] {
        let wrong = Layout {
            sides: Sides { bw, bh },
            ..WIDE
        };
        assert_eq!(cut_try(wrong, 0, [2, 2]), Err(Refusal::Size));
        assert_eq!(wrong.cut(0).err(), Some(Refusal::Size));
    }
}

/// Both ways round: a refusal is the same whichever of the two layouts it is for.
fn alike_try(left: FilteredLayout, right: FilteredLayout) -> Result<bool> {
    let answer = alike(left, right);
    assert_eq!(alike(right, left), answer);
    named(&answer, left.misfit().or(right.misfit()));
    answer
}

const SOUND: FilteredLayout = FilteredLayout {
    layout: WIDE,
    sigma: &[0.5, 0.0],
};
const SHORT: Layout = Layout {
    kinds: &[9],
    ..WIDE
};
const FREE: Layout = Layout {
    kinds: &[2, 0],
    ..WIDE
};

fn of<'a>(layout: Layout<'a>, sigma: &'a [f32]) -> FilteredLayout<'a> {
    FilteredLayout { layout, sigma }
}

fn sided(bw: usize) -> Layout<'static> {
    Layout {
        sides: Sides { bw, bh: 1 },
        ..WIDE
    }
}

#[test]
fn likeness_refuses_sides_then_strengths_then_lengths_then_what_is_no_layout() {
    for (wrong, refusal) in [
        (of(sided(257), &[f32::NAN]), Refusal::Size),
        (of(sided(usize::MAX), &[]), Refusal::Size),
        (of(SHORT, &[0.5, f32::NAN]), Refusal::Parameter),
        (of(FREE, &[f32::INFINITY]), Refusal::Parameter),
        (of(WIDE, &[0.5, 0.0, f32::NEG_INFINITY]), Refusal::Parameter),
        (of(SHORT, &[0.5, 0.0]), Refusal::Length),
        (of(FREE, &[0.5, 0.0, 0.0]), Refusal::Length),
        (of(WIDE, &[0.5]), Refusal::Length),
        (of(WIDE, &[]), Refusal::Length),
        (of(sided(0), &[]), Refusal::Length),
    ] {
        assert_eq!(alike_try(SOUND, wrong), Err(refusal), "{wrong:?}");
    }
    for (kinds, hf_mul) in NO_LAYOUTS {
        let sides = TWO;
        let wrong = Layout {
            sides,
            kinds,
            hf_mul,
        };
        let refused = alike_try(SOUND, of(wrong, &[0.5, 0.0]));
        assert_eq!(refused, Err(Refusal::Layout));
    }
}

#[test]
fn likeness_tries_each_refusal_over_both_layouts_before_the_next() {
    let not_finite = of(WIDE, &[f32::NAN, 0.0]);
    let (large, short, free) = (
        of(sided(257), SOUND.sigma),
        of(SHORT, SOUND.sigma),
        of(FREE, SOUND.sigma),
    );
    assert_eq!(alike_try(not_finite, large), Err(Refusal::Size));
    assert_eq!(alike_try(short, large), Err(Refusal::Size));
    assert_eq!(alike_try(short, not_finite), Err(Refusal::Parameter));
    assert_eq!(alike_try(free, not_finite), Err(Refusal::Parameter));
    assert_eq!(alike_try(free, short), Err(Refusal::Length));
}

/// Infinity, NaNs that signal, quiet ones.
const NOT_FINITE: [u32; 5] = [
    0x7f80_0000,
    0x7f80_0001,
    0x7fbf_ffff,
    0x7fc0_0000,
    0x7fff_ffff,
];
/// Zero, subnormals, the first normal number, above 65,504, the largest.
const FINITE: [u32; 6] = [0, 1, 0x007f_ffff, 0x0080_0000, 0x477f_e001, 0x7f7f_ffff];

#[test]
fn strengths_that_are_not_finite_are_refused_and_every_finite_one_serves() {
    let like_itself = |bits| {
        let sigma = [0.5, f32::from_bits(bits)];
        alike_try(of(WIDE, &sigma), of(WIDE, &sigma))
    };
    for sign in [0, 1 << 31] {
        for bits in FINITE {
            assert_eq!(like_itself(sign | bits), Ok(true), "{bits:#x}");
        }
        for bits in NOT_FINITE {
            let refused = Err(Refusal::Parameter);
            assert_eq!(like_itself(sign | bits), refused, "{bits:#x}");
        }
    }
}

#[test]
fn likeness_tells_varblocks_and_bits_of_strengths_apart() {
    let one = |kinds, hf_mul| Layout {
        sides: Sides { bw: 1, bh: 1 },
        kinds,
        hf_mul,
    };
    let first = of(one(&[2], &[7]), &[0.0]);
    assert_eq!(alike_try(first, first), Ok(true));
    assert_eq!(alike_try(SOUND, SOUND), Ok(true));
    let least = [f32::from_bits(1)];
    for other in [
        of(one(&[3], &[7]), &[0.0]),
        of(one(&[2], &[8]), &[0.0]),
        of(one(&[2], &[7]), &[-0.0]),
        of(one(&[2], &[7]), &least),
        SOUND,
    ] {
        assert_eq!(alike_try(first, other), Ok(false), "{other:?}");
    }
    let two = Layout {
        kinds: &[2, 2],
        hf_mul: &[1, 1],
        ..WIDE
    };
    assert_eq!(alike_try(SOUND, of(two, SOUND.sigma)), Ok(false));
}

#[test]
fn contexts_that_are_refused_leave_the_record() {
    let used = BlockContexts {
        num_block_clusters: 77,
        lengths: [1, 2, 3, 4],
        lf_thresholds: [-5; 45],
        qf_thresholds: [6; 15],
        block_ctx_map: [KIND; 2496],
    };
    let read = |bytes: &[u8], count, map: &[u8]| {
        let mut record = used.clone();
        let answer = block_context(bytes, BlockClusters { count, map }, &mut record);
        if answer.is_err() {
            assert_eq!(record, used);
        }
        answer
    };
    let plain = [0, 0, 0];
    assert_eq!(
        read(&[], 1, &[0; 39]),
        Err(Refusal::BitsEnd { bits_read: 0 })
    );
    assert_eq!(
        read(&[0], 1, &[0; 39]),
        Err(Refusal::BitsEnd { bits_read: 5 })
    );
    assert_eq!(read(&plain, 1, &[0; 38]), Err(Refusal::Length));
    assert_eq!(read(&plain, 0, &[0; 39]), Err(Refusal::Context));
    assert_eq!(read(&plain, 17, &[0; 39]), Err(Refusal::Context));
    assert_eq!(read(&plain, 15, &[15; 39]), Err(Refusal::Context));
    assert_eq!(read(&plain, 16, &[15; 39]), Ok(17));
    // Four lists, 15 and 4 long among them: bsize is 16 x 5 = 80.
    let mut bits = vec![false];
    for length in [15u32, 4, 0, 0] {
        bits.extend((0..4).map(|k| length >> k & 1 == 1));
        // U32 with selector 0 and four bits for each LF value.
        bits.extend((0..6 * length).map(|_| false));
    }
    assert_eq!(read(&packed(&bits), 1, &[0; 39]), Err(Refusal::Context));
}

/// The scan ends where the call ends, and tells the one length of a map that the call takes.
#[test]
fn a_scan_of_contexts_tells_what_the_call_takes() {
    let mut state = 1u32;
    let mut next = || {
        state = state.wrapping_mul(1_664_525).wrapping_add(1_013_904_223);
        state >> 24
    };
    let (mut ended, mut accepted, mut too_many) = (0, 0, 0);
    for _ in 0..20_000 {
        let length = next() % 24;
        // Few bits are set, so that lists are short.
        let bytes: Vec<u8> = (0..length)
            .map(|_| (next() & next() & next()) as u8)
            .collect();
        let scan = scan_contexts(&bytes);
        let map = vec![0; scan.map_or(0, |scan| scan.map_length)];
        let mut record = BlockContexts::ZERO;
        let clusters = BlockClusters {
            count: 1,
            map: &map,
        };
        let answer = block_context(&bytes, clusters, &mut record);
        match scan {
            Err(refused) => assert_eq!(answer, Err(refused)),
            Ok(scan) if scan.map_length > 2496 => assert_eq!(answer, Err(Refusal::Context)),
            Ok(scan) => assert_eq!(answer, Ok(scan.bits_read)),
        }
        ended += usize::from(scan.is_err());
        accepted += usize::from(answer.is_ok() && !map.is_empty());
        too_many += usize::from(answer == Err(Refusal::Context));
    }
    assert!(ended > 100 && accepted > 100 && too_many > 100);
}

/// The number of a situation.
fn number(blocks: u32, count: u32, place: u32, prev: u32) -> Result<u32> {
    coefficient_context(Situation {
        blocks,
        count,
        place,
        prev,
    })
}

#[test]
fn blocks_of_a_situation_are_a_power_of_two_up_to_1024() {
    for exponent in 0..=10 {
        let blocks = 1 << exponent;
        assert_eq!(number(blocks, 1, 0, 0), Ok(0), "{blocks}");
        assert_eq!(number(blocks, blocks, blocks - 1, 1), Ok(1), "{blocks}");
    }
    let mut wrong = vec![0, 3, 5, 63, 65, 1000, 1023, 1025, 1536, u32::MAX];
    for exponent in 11..32 {
        let blocks = 1 << exponent;
        wrong.extend([blocks - 1, blocks, blocks + 1]);
    }
    for blocks in wrong {
        assert_eq!(number(blocks, 1, 0, 0), Err(Refusal::Parameter), "{blocks}");
    }
}

#[test]
fn count_and_place_of_a_situation_are_63_for_each_block_together() {
    for (count, place, due) in [
        (64_512, 0, 413),
        (1, 64_511, 60),
        (33 * 1024, 30 * 1024, 457),
        (33 * 1024 - 1, 30 * 1024 + 1, 457),
    ] {
        assert_eq!(number(1024, count, place, due % 2), Ok(due));
        for (count, place) in [(count + 1, place), (count, place + 1)] {
            let refused = number(1024, count, place, 0);
            assert_eq!(refused, Err(Refusal::Parameter), "{count} {place}");
        }
    }
    // Sums that would wrap to something small, and counts of none.
    for (count, place) in [
        (0, 0),
        (0, 63),
        (u32::MAX, 0),
        (u32::MAX, 1),
        (u32::MAX, 64),
        (u32::MAX, u32::MAX),
        (1, u32::MAX),
        (2, u32::MAX),
        (1 << 31, 1 << 31),
        ((1 << 31) + 1, 1 << 31),
    ] {
        for blocks in [1, 1024, 1 << 31, u32::MAX] {
            let refused = number(blocks, count, place, 1);
            assert_eq!(refused, Err(Refusal::Parameter), "{count} {place}");
        }
    }
}

#[test]
fn both_flags_are_taken_at_every_place_and_no_other() {
    for blocks in [1, 2, 1024] {
        for (count, place) in [
            (1, 0),
            (4 * blocks, 0),
            (4 * blocks + 1, 0),
            (1, 62 * blocks),
        ] {
            let least = number(blocks, count, place, 0).expect("a situation");
            assert_eq!(number(blocks, count, place, 1), Ok(least + 1));
            for prev in [2, 3, 256, 1 << 31, u32::MAX] {
                let refused = number(blocks, count, place, prev);
                assert_eq!(refused, Err(Refusal::Parameter), "{prev}");
            }
        }
    }
}

#[test]
fn the_library_is_of_the_crates_version() {
    assert_eq!(version(), VERSION);
}

fn packed(bits: &[bool]) -> Vec<u8> {
    let byte = |bits: &[bool]| {
        bits.iter()
            .rev()
            .fold(0, |byte, &bit| 2 * byte + u8::from(bit))
    };
    bits.chunks(8).map(byte).collect()
}

#[test]
fn orders_that_are_refused_leave_zeros() {
    let read = |bytes: &[u8], symbols: &[u32], length| {
        let mut store = vec![0xa5a5; length];
        let answer = orders(bytes, symbols, &mut store);
        let left = match answer {
            Err(Refusal::Order { .. } | Refusal::SymbolsEnd { .. }) => Some(0),
            Err(_) => Some(0xa5a5),
            Ok(_) => None,
        };
        assert!(left.is_none_or(|left| store.iter().all(|&number| number == left)));
        answer
    };
    let first_order = [0b111, 0];
    assert_eq!(read(&[2], &[], STORE_LENGTH - 1), Err(Refusal::Length));
    assert_eq!(read(&[2], &[], 0), Err(Refusal::Length));
    assert_eq!(
        read(&[], &[], STORE_LENGTH),
        Err(Refusal::BitsEnd { bits_read: 0 })
    );
    assert_eq!(
        read(&first_order, &[64], STORE_LENGTH),
        Err(Refusal::Order { symbols_read: 1 })
    );
    assert_eq!(
        read(&first_order, &[0, 1, 63], STORE_LENGTH),
        Err(Refusal::Order { symbols_read: 3 })
    );
    assert_eq!(
        read(&first_order, &[0, 1], STORE_LENGTH),
        Err(Refusal::SymbolsEnd { symbols_read: 2 })
    );
    assert_eq!(read(&first_order, &[0, 1, 62, 0, 9], STORE_LENGTH), Ok(4));
}

/// A coefficient call over one Dct8 with everything fitting, to be put out of order.
struct CoefficientTry {
    sides: Sides,
    kinds: Vec<u8>,
    contexts: BlockContexts,
    lf: Option<[Vec<i32>; 3]>,
    store: Box<[u16]>,
    presets: u32,
    cluster_map: Vec<u8>,
    shift: u32,
    bytes: Vec<u8>,
    symbols: Vec<u32>,
    grids: [usize; 3],
    log: usize,
}

impl CoefficientTry {
    fn new(presets: u32, bytes: &[u8], symbols: &[u32]) -> Self {
        let contexts = BlockContexts::standard();
        Self {
            sides: Sides { bw: 1, bh: 1 },
            kinds: vec![2],
            cluster_map: vec![0; Presets::map_length(&contexts, presets)],
            contexts,
            lf: None,
            store: OrdersBuf::natural().store,
            presets,
            shift: 0,
            bytes: bytes.to_vec(),
            symbols: symbols.to_vec(),
            grids: [64; 3],
            log: 192,
        }
    }

    /// The answer, the grids and the log.
    fn read(&self) -> (Result<usize>, [Vec<i32>; 3], Vec<u8>) {
        let mut grids = self.grids.map(|length| vec![NUMBER; length]);
        let mut log = vec![KIND; self.log];
        let input = CoefficientInput {
            group: Group {
                sides: self.sides,
                kinds: &self.kinds,
                hf_mul: &[1],
            },
            contexts: &self.contexts,
            lf: self.lf.as_ref().map(|lf| LfGrids {
                channels: lf.each_ref().map(Vec::as_slice),
            }),
            orders: Orders { store: &self.store },
            presets: Presets {
                count: self.presets,
                cluster_map: &self.cluster_map,
            },
            shift: self.shift,
            bytes: &self.bytes,
            symbols: &self.symbols,
        };
        let output = CoefficientMut {
            grids: grids.each_mut().map(Vec::as_mut_slice),
            log: &mut log,
        };
        let misfit = input.misfit(&output);
        let answer = coefficients(&input, output);
        named(&answer, misfit);
        (answer, grids, log)
    }

    /// The refusal of a call that writes nothing.
    fn refused(&self) -> Refusal {
        let (answer, grids, log) = self.read();
        assert!(grids.iter().flatten().all(|&cell| cell == NUMBER));
        assert!(log.iter().all(|&cluster| cluster == KIND));
        answer.expect_err("a refusal")
    }
}

#[test]
fn coefficient_calls_refused_before_work_write_nothing() {
    let none = [0, 0, 0];
    assert_eq!(CoefficientTry::new(1, &[], &none).read().0, Ok(3));
    let tried = |spoil: fn(&mut CoefficientTry)| {
        let mut call = CoefficientTry::new(1, &[], &[0, 0, 0]);
        spoil(&mut call);
        call.refused()
    };
    assert_eq!(tried(|call| call.sides.bw = 33), Refusal::Size);
    assert_eq!(tried(|call| call.sides.bh = 33), Refusal::Size);
    assert_eq!(tried(|call| call.sides.bh = 0), Refusal::Length);
    assert_eq!(tried(|call| call.shift = 4), Refusal::Parameter);
    assert_eq!(tried(|call| call.presets = 257), Refusal::Parameter);
    assert_eq!(
        tried(|call| call.contexts = BlockContexts::ZERO),
        Refusal::Context
    );
    assert_eq!(
        tried(|call| call.contexts.lengths[3] = 16),
        Refusal::Context
    );
    assert_eq!(
        tried(|call| call.contexts.block_ctx_map[38] = 15),
        Refusal::Context
    );
    assert_eq!(tried(|call| call.kinds.push(1)), Refusal::Length);
    assert_eq!(
        tried(|call| call.cluster_map.truncate(7_424)),
        Refusal::Length
    );
    assert_eq!(
        tried(|call| call.store = vec![0; 2].into()),
        Refusal::Length
    );
    assert_eq!(tried(|call| call.grids[2] = 65), Refusal::Length);
    assert_eq!(tried(|call| call.log = 191), Refusal::Length);
    assert_eq!(
        tried(|call| call.lf = Some([vec![0], vec![0], vec![]])),
        Refusal::Length
    );
    assert_eq!(tried(|call| call.kinds[0] = 0), Refusal::Layout);
    assert_eq!(tried(|call| call.store[1] = 8), Refusal::StoredPlace);
}

#[test]
fn presets_are_read_from_the_first_bits() {
    let call = |presets, bytes: &[u8]| CoefficientTry::new(presets, bytes, &[0, 0, 0]);
    assert_eq!(call(3, &[2]).read().0, Ok(3));
    assert_eq!(call(3, &[3]).refused(), Refusal::Preset { bits_read: 2 });
    assert_eq!(call(0, &[]).refused(), Refusal::Preset { bits_read: 0 });
    assert_eq!(call(3, &[]).refused(), Refusal::BitsEnd { bits_read: 0 });
}

#[test]
fn what_was_added_and_logged_before_stays() {
    // Channel 1 gets -2 at (0, 1); then symbols end, a count is too large, a context is, or places
    // end with count remaining.
    let zeros = |count, zeros| [vec![1, 3, count], vec![0; zeros]].concat();
    let tries = [
        (vec![1, 3], Refusal::SymbolsEnd { symbols_read: 2 }, 2),
        (vec![1, 3, 64], Refusal::Count { symbols_read: 3 }, 3),
        (
            zeros(33, 63),
            Refusal::CoefficientContext { symbols_read: 34 },
            34,
        ),
        (
            zeros(32, 63),
            Refusal::CountRemaining { symbols_read: 66 },
            66,
        ),
        (zeros(1, 62), Refusal::SymbolsEnd { symbols_read: 65 }, 65),
        (
            zeros(1, 64),
            Refusal::CountRemaining { symbols_read: 66 },
            66,
        ),
    ];
    for (symbols, refusal, logged) in tries {
        let (answer, grids, log) = CoefficientTry::new(1, &[], &symbols).read();
        assert_eq!(answer, Err(refusal));
        let changed = |channel: usize| {
            grids[channel]
                .iter()
                .filter(|&&cell| cell != NUMBER)
                .count()
        };
        assert_eq!([changed(0), changed(1), changed(2)], [0, 1, 0]);
        assert_eq!(grids[1][8], NUMBER - 2);
        assert!(log[..logged].iter().all(|&cluster| cluster == 0));
        assert!(log[logged..].iter().all(|&cluster| cluster == KIND));
    }
}

/// Of each channel; the symbol of the last place, (7, 7), is read, logged and added before.
#[test]
fn a_count_that_is_not_used_up_is_refused_behind_the_last_place() {
    for (before, channel) in [1, 0, 2].into_iter().enumerate() {
        let mut symbols = [vec![0; before], vec![2], vec![0; 63]].concat();
        *symbols.last_mut().expect("a symbol") = 2;
        let (answer, grids, log) = CoefficientTry::new(1, &[], &symbols).read();
        let symbols_read = before + 64;
        assert_eq!(answer, Err(Refusal::CountRemaining { symbols_read }));
        for (each, grid) in grids.iter().enumerate() {
            let gained = i32::from(each == channel);
            assert!(grid[..63].iter().all(|&cell| cell == NUMBER));
            assert_eq!(grid[63], NUMBER + gained, "channel {each}");
        }
        assert_eq!(log.iter().filter(|&&byte| byte == 0).count(), symbols_read);
    }
}
