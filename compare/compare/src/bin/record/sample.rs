//! Which calls are recorded: of each answer that a call can give some inputs, the same every time.

use std::collections::BTreeMap;

use calls::{AlikeCall, CutCall, Layout, LayoutCall, OrdersCall, Outcome, STORE_LENGTH};
use compare::cases::{
    AlikeCase, Case, CensusCase, CoefficientsCase, CoefficientsInput, ColumnCountCase,
    ContextsCase, CutCase, LayoutCase, OrdersCase, TransformCase, MAP_MOST,
};
use compare::make::{OrdersAndStore, USED_BYTE, USED_WORD};
use compare::rng::Rng;

use crate::encode;
use crate::writer::{patterned, Body};

const MAGIC: &[u8; 8] = b"NETBUFF2";
const MADE_BY: &str = "cargo run --release --offline --locked -p compare --bin record \
    > ../crates/replay/data/answers.bin, in compare/; form: compare/RECORD.md";
const SEED: u64 = 18_181;
/// Limits of what is lent: blocks of a layout and of a group, entries of the cluster map, numbers of
/// a grid, bytes of the log.
const LAYOUT_MOST: usize = 1024;
const GROUP_MOST: usize = 64;
const ENTRIES_MOST: usize = 65_536;
const GRID_MOST: usize = 4096;
const LOG_MOST: usize = 16_384;
/// What lent memory holds besides `USED_BYTE` and `USED_WORD`.
const USED_SHORT: u16 = 0xA5A5;
const USED_FLOAT: f32 = -1.5;

pub fn file() -> Vec<u8> {
    let mut file = File::default();
    let mut text = Body::default();
    text.bytes(MADE_BY.as_bytes());
    file.record(0, text);
    let each = |numbers| Quota::new(1000, numbers).of(40, 40, 20);
    file.sample(1, &TransformCase, encode::transform, each(&[5]), |_| true);
    let counts = each(&[2, 3, 11]);
    file.sample(2, &ColumnCountCase, encode::column_count, counts, |_| true);
    let layouts = Quota::new(20_000, &[1, 2, 4, 5, 6, 7, 8, 9, 10, 11]).of(40, 8, 300);
    file.sample(3, &LayoutCase, encode::layout, layouts, plain_layout);
    let groups = Quota::new(10_000, &[1, 2, 18]).of(20, 10, 250);
    file.sample(4, &CutCase, encode::cut, groups, plain_cut);
    let pairs = Quota::new(10_000, &[1, 2, 11, 18]).of(60, 10, 120);
    file.sample(5, &AlikeCase, encode::alike, pairs, plain_pair);
    let contexts = Quota::new(10_000, &[1, 3, 12]).of(40, 10, 250);
    file.sample(6, &ContextsCase, encode::contexts, contexts, |_| true);
    let lists = Quota::new(1000, &[1, 3, 13, 15]).of(14, 6, 700);
    file.sample(7, &OrdersCase, encode::orders, lists, plain_orders);
    let passes = Quota::new(8000, &[1, 2, 3, 11, 12, 13, 14, 15, 16, 17, 18, 24]).of(28, 4, 700);
    let case = CoefficientsCase::over(orders());
    file.sample(8, &case, encode::coefficients, passes, plain_coefficients);
    let census = CensusCase::default();
    file.sample(9, &census, encode::census, each(&[11]), |_| true);
    file.strips(&case);
    file.bytes()
}

/// Orders that take few symbols.
fn orders() -> [OrdersAndStore; 3] {
    let lists: [(u32, &[u32]); 3] = [
        (0, &[]),
        (1, &[1, 1, 2, 5, 0, 3, 62, 61, 60]),
        (0x16, &[2, 62, 61, 0, 1, 7, 0, 0, 2, 1, 1, 3, 0, 0, 0, 0, 0]),
    ];
    lists.map(|(used, symbols)| OrdersAndStore::new(used, symbols, patterned(MAP_MOST)))
}

/// Lends buffers that need not be written out.
fn plain_layout(call: &mut LayoutCall) -> bool {
    let buffers = &mut call.buffers;
    buffers.kinds.fill(USED_BYTE);
    buffers.hf_mul.fill(USED_WORD);
    buffers.sigma.fill(USED_FLOAT);
    let longest = buffers.kinds.len().max(buffers.hf_mul.len());
    longest.max(buffers.sigma.len()) <= LAYOUT_MOST
}

fn plain_cut(call: &mut CutCall) -> bool {
    call.kinds.fill(USED_BYTE);
    call.hf_mul.fill(USED_WORD);
    let small = call.kinds.len().max(call.hf_mul.len()) <= LAYOUT_MOST;
    small && sides_recorded(&call.layout) && call.group < 100
}

fn plain_pair(call: &mut AlikeCall) -> bool {
    sides_recorded(&call.left.layout) && sides_recorded(&call.right.layout)
}

fn plain_orders(call: &mut OrdersCall) -> bool {
    call.store.fill(USED_SHORT);
    call.store.len() <= STORE_LENGTH
}

/// Large calls, and a store that is longer than it should be, are not recorded.
fn plain_coefficients(input: &mut CoefficientsInput) -> bool {
    let call = &mut input.call;
    for grid in &mut call.buffers.grids {
        grid.fill(USED_WORD);
    }
    call.buffers.log.fill(USED_BYTE);
    call.cluster_map = patterned(call.cluster_map.len());
    let contexts = &mut call.contexts;
    let used = contexts.lengths.iter().map(|&length| length as usize + 1);
    let used_map = used.fold(39, usize::saturating_mul).min(contexts.map.len());
    contexts.map[used_map..].fill(0);
    let small = call.group.kinds.len() <= GROUP_MOST && call.cluster_map.len() <= ENTRIES_MOST;
    let lent = &call.buffers;
    let grids_small = lent.grids.iter().all(|grid| grid.len() <= GRID_MOST);
    let lent_small = grids_small && lent.log.len() <= LOG_MOST;
    small && lent_small && sides_recorded(&call.group) && call.store.len() <= STORE_LENGTH
}

/// Sides that are numbers of 32 bits.
fn sides_recorded(layout: &Layout) -> bool {
    [layout.bw, layout.bh]
        .iter()
        .all(|&side| side <= u32::MAX as usize)
}

/// What is recorded of a call: how many inputs are tried, the refusals that it can give, how many
/// accepted calls and of each refusal, and how many numbers a record may have; all of them strips
/// without blocks, or none.
#[derive(Copy, Clone)]
struct Quota {
    tried: usize,
    refusals: &'static [u32],
    accepted: usize,
    refused: usize,
    largest: usize,
    strips: bool,
}

impl Quota {
    fn new(tried: usize, refusals: &'static [u32]) -> Self {
        Self {
            tried,
            refusals,
            accepted: 0,
            refused: 0,
            largest: 0,
            strips: false,
        }
    }

    fn strips(tried: usize, refusals: &'static [u32]) -> Self {
        Self {
            strips: true,
            ..Self::new(tried, refusals)
        }
    }

    fn of(self, accepted: usize, refused: usize, largest: usize) -> Self {
        Self {
            accepted,
            refused,
            largest,
            ..self
        }
    }

    fn most(&self, number: u32) -> usize {
        if number == 0 {
            self.accepted
        } else {
            self.refused
        }
    }
}

#[derive(Default)]
struct File {
    numbers: Vec<u32>,
}

impl File {
    fn bytes(&self) -> Vec<u8> {
        let numbers = self.numbers.iter().flat_map(|number| number.to_le_bytes());
        MAGIC.iter().copied().chain(numbers).collect()
    }

    fn record(&mut self, call: u32, body: Body) {
        let mut head = Body::default();
        head.number(call);
        head.size(body.numbers.len());
        self.numbers.extend(head.numbers);
        self.numbers.extend(body.numbers);
    }

    /// Records strips without blocks (document 02, No. 2). No group of theirs is cut.
    fn strips(&mut self, case: &CoefficientsCase) {
        let counts = Quota::strips(1000, &[2, 11]).of(8, 4, 20);
        self.sample(2, &ColumnCountCase, encode::column_count, counts, |_| true);
        let layouts = Quota::strips(20_000, &[1, 2, 11]).of(12, 6, 60);
        self.sample(3, &LayoutCase, encode::layout, layouts, plain_layout);
        let groups = Quota::strips(10_000, &[2]).of(0, 12, 60);
        self.sample(4, &CutCase, encode::cut, groups, plain_cut);
        let pairs = Quota::strips(10_000, &[1, 2, 11, 18]).of(16, 4, 120);
        self.sample(5, &AlikeCase, encode::alike, pairs, plain_pair);
        let passes = Quota::strips(8000, &[1, 2, 3, 11, 12, 13, 14]).of(10, 3, 120);
        self.sample(8, case, encode::coefficients, passes, plain_coefficients);
    }

    /// Records short and random inputs of a call in turn, as `prepare` makes them ready, where it
    /// wants them.
    fn sample<C: Case>(
        &mut self,
        call: u32,
        case: &C,
        encode: impl Fn(&mut Body, &C::Input, &Outcome<C::Value, C::Buffers>),
        quota: Quota,
        prepare: impl Fn(&mut C::Input) -> bool,
    ) {
        let mut rng = Rng::new(SEED + u64::from(call));
        let mut recorded = BTreeMap::<u32, usize>::new();
        for number in 0..quota.tried {
            let mut input = if number % 4 == 0 {
                case.short(rng.below(case.short_count()))
            } else {
                case.random(&mut rng)
            };
            let is_strip = case.without_blocks(&input) == Some(true);
            if is_strip != quota.strips || !prepare(&mut input) {
                continue;
            }
            let outcome = case.expected(&input);
            let refusal = outcome.answer.as_ref().err();
            let refusal = refusal.map_or(0, |refusal| refusal.number);
            let count = recorded.entry(refusal).or_default();
            let mut body = Body::default();
            if *count < quota.most(refusal) {
                encode(&mut body, &input, &outcome);
                if body.numbers.len() <= quota.largest {
                    *count += 1;
                    self.record(call, body);
                }
            }
        }
        let accepted: &[u32] = if quota.accepted > 0 { &[0] } else { &[] };
        for number in quota.refusals.iter().chain(accepted) {
            let count = recorded.get(number).unwrap_or(&0);
            assert!(*count > 0, "call {call}: no input is answered by {number}");
        }
    }
}
