//! The marked examples of the scope (M1 to M11), and those that its requests add, by the wrapper.

use netbuff::*;

fn places(orders: &OrdersBuf, order: usize) -> Vec<(u16, u16)> {
    orders.orders().places(order, 0).collect()
}

fn lay_out(group: LfGroup, types: &[i32], muls: &[i32]) -> Result<LayoutBuf> {
    let sharpness = vec![0; group.sides().blocks()];
    LayoutBuf::read(&LayoutInput::unfiltered(
        group,
        Columns { types, muls },
        &sharpness,
    ))
}

#[test]
fn m1_m2_natural_orders_start() {
    let natural = OrdersBuf::natural();
    let start = [(0, 0), (1, 0), (0, 1), (0, 2), (1, 1), (2, 0)];
    assert_eq!(places(&natural, 0)[..6], start);
    let start = [(0, 0), (1, 0), (0, 1), (2, 0), (3, 0), (1, 1)];
    assert_eq!(places(&natural, 4)[..6], start);
}

#[test]
fn m3_a_digit_takes_a_place() {
    let permuted = OrdersBuf::read(&[0b111, 0], &[1, 1, 0, 0]).expect("orders");
    assert_eq!(places(&permuted, 0)[..4], [(0, 0), (0, 1), (1, 0), (0, 2)]);
    assert_eq!(permuted.symbols_read, 4);
}

#[test]
fn m4_the_listers_layout() {
    let layout = lay_out(LfGroup::new(16, 16), &[6, 0, 0], &[4, 0, 2]).expect("a layout");
    let varblock = |x, y, transform, hf_mul| Varblock {
        x,
        y,
        transform,
        hf_mul,
    };
    let expected = [
        varblock(0, 0, 6, 5),
        varblock(1, 0, 0, 1),
        varblock(1, 1, 0, 3),
    ];
    assert!(layout.layout().varblocks().eq(expected));
    assert_eq!(layout.columns_used, 3);
}

#[test]
fn m5_hf_mul_is_mul_and_one() {
    let one = LfGroup::new(8, 8);
    assert_eq!(lay_out(one, &[0], &[0]).expect("a layout").hf_mul, [1]);
    let refused = Err(Refusal::HfMul { x: 0, y: 0 });
    assert_eq!(lay_out(one, &[0], &[-1]), refused);
}

#[test]
fn m6_a_border_may_be_touched() {
    let columns = |before: usize| {
        let mut types = vec![0; before];
        types.extend([7; 9]);
        let muls = vec![0; types.len()];
        lay_out(LfGroup::new(8 * 48, 8), &types, &muls)
    };
    assert!(columns(30).is_ok());
    assert_eq!(columns(31), Err(Refusal::Border { x: 31, y: 0 }));
}

#[test]
fn m7_m8_strengths() {
    let strength = |mul, scale| {
        let input = LayoutInput {
            group: LfGroup::new(8, 8),
            columns: Columns {
                types: &[0],
                muls: &[mul],
            },
            sharpness: &[0],
            filter: Filter::On(0.5),
            lookup: &[2.0; 8],
            scale,
        };
        LayoutBuf::read(&input).expect("a layout").sigma[0]
    };
    assert_eq!(strength(3, 32_768), 0.5);
    assert_eq!(strength(16_777_216, 1), strength(16_777_215, 1));
}

/// Reads a group of one varblock with standard contexts and natural orders.
fn read(
    transform: u32,
    presets: u32,
    bytes: &[u8],
    cluster_map: &dyn Fn(usize) -> u8,
    symbols: &[u32],
) -> (Result<usize>, GridsBuf, Vec<u8>) {
    let known = netbuff::transform(transform).expect("a transform");
    let sides = Sides {
        bw: known.wide,
        bh: known.high,
    };
    let mut kinds = vec![1; sides.blocks()];
    kinds[0] = 2 + transform as u8;
    let mut hf_mul = vec![0; sides.blocks()];
    hf_mul[0] = 1;
    let contexts = BlockContexts::standard();
    let cluster_map: Vec<u8> = (0..Presets::map_length(&contexts, presets))
        .map(cluster_map)
        .collect();
    let orders = OrdersBuf::natural();
    let input = CoefficientInput {
        group: Group {
            sides,
            kinds: &kinds,
            hf_mul: &hf_mul,
        },
        contexts: &contexts,
        lf: None,
        orders: orders.orders(),
        presets: Presets {
            count: presets,
            cluster_map: &cluster_map,
        },
        shift: 0,
        bytes,
        symbols,
    };
    let mut grids = GridsBuf::zero(sides);
    let mut log = vec![0; sides.log_length()];
    let answer = coefficients(&input, grids.lend(&mut log));
    (answer, grids, log)
}

#[test]
fn m9_a_count_of_63_for_each_block() {
    let passes = |count| read(4, 1, &[], &|_| 0, &[count]).0;
    assert_eq!(passes(252), Err(Refusal::SymbolsEnd { symbols_read: 1 }));
    assert_eq!(passes(253), Err(Refusal::Count { symbols_read: 1 }));
}

#[test]
fn m10_three_presets_take_two_bits() {
    let none = [0, 0, 0];
    assert_eq!(read(0, 3, &[2], &|_| 0, &none).0, Ok(3));
    let refused = Err(Refusal::Preset { bits_read: 2 });
    assert_eq!(read(0, 3, &[3], &|_| 0, &none).0, refused);
}

/// The contexts of the symbols read: places in the preset's part of the cluster map. Each has
/// another byte as far as bytes go, so it is read twice, for its low and its high part.
fn contexts_read(transform: u32, symbols: &[u32]) -> Vec<u32> {
    let (answer, _, low) = read(transform, 1, &[], &|context| context as u8, symbols);
    let (_, _, high) = read(transform, 1, &[], &|context| (context >> 8) as u8, symbols);
    (0..answer.expect("coefficients"))
        .map(|k| u32::from(low[k]) + 256 * u32::from(high[k]))
        .collect()
}

#[test]
fn m11_one_dct8() {
    let symbols = [2, 3, 0, 4, 0, 0];
    let (answer, grids, _) = read(0, 1, &[], &|_| 0, &symbols);
    assert_eq!(answer, Ok(6));
    assert_eq!((grids.at(1, 0, 1), grids.at(1, 2, 0)), (-2, 2));
    let filled = grids.channels.iter().flatten().filter(|&&cell| cell != 0);
    assert_eq!(filled.count(), 2);
    let contexts = [300, 618, 558, 559, 307, 307];
    assert_eq!(contexts_read(0, &symbols), contexts);
}

/// The first of the 458 entries of a block context, of standard contexts.
fn first_entry(block_context: u32) -> u32 {
    458 * block_context + 37 * 15
}

fn number(blocks: u32, count: u32, place: u32, prev: u32) -> u32 {
    let situation = Situation {
        blocks,
        count,
        place,
        prev,
    };
    coefficient_context(situation).expect("a situation")
}

/// Block context 0: 63, 3 and 4.
#[test]
fn no_9_the_coefficients_of_m11() {
    let numbers = [number(1, 2, 0, 1), number(1, 1, 1, 1), number(1, 1, 2, 0)];
    assert_eq!(numbers, [63, 3, 4]);
    assert_eq!(numbers.map(|n| first_entry(0) + n), [618, 558, 559]);
}

/// In channel 1 of a varblock: the entry of each coefficient is that of its situation.
fn reads_entries_of_situations(transform: u32, blocks: u32, count: u32) {
    // Every second coefficient that is not 0 has a 0 before it.
    let filled = |k| [0, 1].into_iter().skip(usize::from(k % 2 == 0));
    let coefficients: Vec<u32> = (0..count).flat_map(filled).collect();
    let contexts = contexts_read(transform, &[&[count], &coefficients[..], &[0, 0]].concat());
    let first = first_entry(contexts[0] % 15);
    let (mut left, mut prev) = (count, u32::from(count <= 4 * blocks));
    for ((place, &symbol), &context) in (0..).zip(&coefficients).zip(&contexts[1..]) {
        assert_eq!(context, first + number(blocks, left, place, prev));
        prev = u32::from(symbol != 0);
        left -= prev;
    }
    assert_eq!(left, 0);
}

#[test]
fn no_9_a_reading_takes_the_entries_of_its_situations() {
    for transform in [0, 4, 5, 6, 18, 24] {
        let known = netbuff::transform(transform).expect("a transform");
        let blocks = (known.wide * known.high) as u32;
        for count in [1, 4 * blocks, 4 * blocks + 1, 42 * blocks] {
            reads_entries_of_situations(transform, blocks, count);
        }
    }
}

#[test]
fn no_9_each_number_occurs() {
    let mut occurs = [false; 458];
    for (count, place) in (1..=63).flat_map(|n| (0..=63 - n).map(move |i| (n, i))) {
        for prev in [0, 1] {
            occurs[number(1, count, place, prev) as usize] = true;
        }
    }
    assert!(occurs.iter().all(|&once| once));
}

#[test]
fn transforms_have_the_sides_that_their_names_tell() {
    let side = |digits: &str| digits.parse::<usize>().expect("pixels").div_ceil(8);
    for (number, kind) in (0..).zip(TransformType::ALL) {
        assert_eq!(
            (kind.number(), TransformType::of(number)),
            (number, Some(kind))
        );
        let known = transform(number).expect("a transform");
        let (high, wide) = match kind.name().strip_prefix("Dct") {
            None => (1, 1),
            Some(sides) => match sides.split_once('x') {
                Some((high, wide)) => (side(high), side(wide)),
                None => (side(sides), side(sides)),
            },
        };
        assert_eq!((known.high, known.wide), (high, wide), "{kind}");
    }
}

#[test]
fn no_12_hornuss_is_not_like_dct8() {
    let read = |number| lay_out(LfGroup::new(8, 8), &[number], &[0]).expect("a layout");
    let (dct8, hornuss) = (
        read(TransformType::Dct8 as i32),
        read(TransformType::Hornuss as i32),
    );
    assert_eq!(alike(dct8.filtered(), hornuss.filtered()), Ok(false));
    assert_eq!(alike(dct8.filtered(), dct8.filtered()), Ok(true));
}
