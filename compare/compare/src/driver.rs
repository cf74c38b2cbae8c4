//! Runs inputs through a call and through what is expected of it, until a difference is found.

use std::collections::{BTreeMap, HashSet};
use std::fmt;
use std::panic::{catch_unwind, AssertUnwindSafe};
use std::time::{Duration, Instant};

use calls::Outcome;

use crate::cases::Case;
use crate::rng::Rng;

/// How long to go on.
#[derive(Debug, Copy, Clone)]
pub enum Effort {
    Inputs(usize),
    Time(Duration),
}

/// What was run, and the first difference.
#[derive(Debug, Default)]
pub struct Report {
    pub name: &'static str,
    pub short: usize,
    pub short_of: usize,
    pub random: usize,
    /// How many of them were different, for calls that tell it.
    pub different: Option<usize>,
    /// How many of them were held against the model in place of the Rust, for calls that tell it.
    pub by_model: Option<usize>,
    /// How many of them had a side of 0, for calls that tell it.
    pub without_blocks: Option<usize>,
    /// How many inputs were answered with each refusal; 0 counts those that were accepted.
    pub by_number: BTreeMap<u32, usize>,
    pub difference: Option<String>,
    pub seconds: f64,
}

impl Report {
    pub fn inputs(&self) -> usize {
        self.short + self.random
    }

    pub fn accepted(&self) -> usize {
        self.by_number.get(&0).copied().unwrap_or_default()
    }

    /// Each refusal that was met, and how often.
    pub fn refusals(&self) -> String {
        let shown = |(number, count): (&u32, &usize)| format!("{number}: {count}");
        let refusals: Vec<_> = self.by_number.range(1..).map(shown).collect();
        refusals.join(", ")
    }
}

impl fmt::Display for Report {
    fn fmt(&self, f: &mut fmt::Formatter<'_>) -> fmt::Result {
        let Report {
            name,
            short,
            short_of,
            random,
            seconds,
            ..
        } = self;
        let accepted = self.accepted();
        write!(
            f,
            "{name}: {short} of {short_of} short inputs, {random} random; accepted {accepted}"
        )?;
        let refusals = self.refusals();
        if !refusals.is_empty() {
            write!(f, ", {refusals}")?;
        }
        if let Some(different) = self.different {
            write!(f, "; {different} different")?;
        }
        if let Some(by_model) = self.by_model {
            write!(f, "; {by_model} by the model")?;
        }
        if let Some(without_blocks) = self.without_blocks {
            write!(f, "; {without_blocks} without blocks")?;
        }
        write!(f, "; {seconds:.1} s")?;
        if let Some(difference) = &self.difference {
            write!(f, "\n  DIFFERENCE\n{difference}")?;
        }
        Ok(())
    }
}

type Answered<C> = Outcome<<C as Case>::Value, <C as Case>::Buffers>;

/// Is shown the report after each input.
pub type Watch<'a> = &'a mut dyn FnMut(&Report);

/// A comparison of one call, which goes on where it was left.
pub trait Comparison {
    /// Compares on short inputs (until there are no more, or half of the effort is spent), then on
    /// random ones; not at all once a difference was found.
    fn advance(&mut self, effort: Effort, watch: Watch);

    /// How many calls' share of a given time it has.
    fn share(&self) -> u32;

    fn report(&self) -> &Report;
}

/// The comparison of `ours` with what a case expects.
pub struct Run<'a, C, F> {
    case: &'a C,
    ours: F,
    /// The next short input, and how far behind it the one after that is: they are spread over all.
    next_short: usize,
    stride: usize,
    rng: Rng,
    met: HashSet<u64>,
    report: Report,
}

impl<'a, C: Case, F: Fn(&C::Input) -> Answered<C>> Run<'a, C, F> {
    pub fn new(case: &'a C, ours: F, seed: u64) -> Self {
        let short_of = case.short_count();
        Self {
            case,
            ours,
            next_short: 0,
            stride: coprime_stride(short_of, seed),
            rng: Rng::new(seed),
            met: HashSet::new(),
            report: Report {
                name: C::NAME,
                short_of,
                ..Report::default()
            },
        }
    }

    fn step_short(&mut self) {
        let input = self.case.short(self.next_short);
        self.step(input);
        self.report.short += 1;
        self.next_short = (self.next_short + self.stride) % self.report.short_of;
    }

    fn step_random(&mut self) {
        let input = self.case.random(&mut self.rng);
        self.step(input);
        self.report.random += 1;
    }

    fn step(&mut self, input: C::Input) {
        if let Some(digest) = self.case.digest(&input) {
            self.met.insert(digest);
            self.report.different = Some(self.met.len());
        }
        if let Some(empty) = self.case.without_blocks(&input) {
            *self.report.without_blocks.get_or_insert(0) += usize::from(empty);
        }
        step(self.case, &self.ours, input, &mut self.report);
    }
}

impl<C: Case, F: Fn(&C::Input) -> Answered<C>> Comparison for Run<'_, C, F> {
    fn advance(&mut self, effort: Effort, watch: Watch) {
        let start = Instant::now();
        let before = self.report.inputs();
        let goes_on = |report: &Report, share: u32| {
            let spent = match effort {
                Effort::Inputs(inputs) => report.inputs() - before >= inputs / share as usize,
                Effort::Time(time) => start.elapsed() >= time / share,
            };
            report.difference.is_none() && !spent
        };
        while self.report.short < self.report.short_of && goes_on(&self.report, 2) {
            self.step_short();
            watch(&self.report);
        }
        while goes_on(&self.report, 1) {
            self.step_random();
            watch(&self.report);
        }
        self.report.seconds += start.elapsed().as_secs_f64();
    }

    fn share(&self) -> u32 {
        C::SHARE
    }

    fn report(&self) -> &Report {
        &self.report
    }
}

/// Compares `ours` with what a case expects, in one go.
pub fn run<C: Case>(
    case: &C,
    ours: impl Fn(&C::Input) -> Answered<C>,
    effort: Effort,
    seed: u64,
) -> Report {
    let mut run = Run::new(case, ours, seed);
    run.advance(effort, &mut |_| ());
    run.report
}

/// A stride that visits every number below `count` before it comes back.
fn coprime_stride(count: usize, seed: u64) -> usize {
    fn divisor(a: usize, b: usize) -> usize {
        if b == 0 {
            a
        } else {
            divisor(b, a % b)
        }
    }
    let wished = count / 2 + seed as usize % 1000 + 1;
    (wished..)
        .find(|&stride| divisor(count, stride) == 1)
        .expect("a prime above count is one")
}

fn step<C: Case>(
    case: &C,
    ours: &impl Fn(&C::Input) -> Answered<C>,
    input: C::Input,
    report: &mut Report,
) {
    let number = match expect(case, &input) {
        Ok(expected) => {
            if let Some(by_model) = case.by_model(&input, &expected) {
                *report.by_model.get_or_insert(0) += usize::from(by_model);
            }
            let refusal = expected.answer.as_ref().err();
            let number = refusal.map_or(0, |refusal| refusal.number);
            (expected == ours(&input)).then_some(number)
        }
        Err(_) => None,
    };
    match number {
        Some(number) => *report.by_number.entry(number).or_default() += 1,
        None => report.difference = Some(describe(case, ours, &shrink(case, ours, input))),
    }
}

/// What is expected; the text of a panic where the Rust panics.
fn expect<C: Case>(case: &C, input: &C::Input) -> Result<Answered<C>, String> {
    catch_unwind(AssertUnwindSafe(|| case.expected(input))).map_err(|panic| {
        let text = panic.downcast_ref::<String>().cloned();
        text.or(panic.downcast_ref::<&str>().map(|text| text.to_string()))
            .unwrap_or_default()
    })
}

fn differs<C: Case>(case: &C, ours: &impl Fn(&C::Input) -> Answered<C>, input: &C::Input) -> bool {
    match expect(case, input) {
        Ok(expected) => expected != ours(input),
        Err(_) => true,
    }
}

/// A smallest input that still differs.
fn shrink<C: Case>(
    case: &C,
    ours: &impl Fn(&C::Input) -> Answered<C>,
    mut input: C::Input,
) -> C::Input {
    const STEPS: usize = 2000;
    for _ in 0..STEPS {
        let smaller = case.smaller(&input).into_iter();
        match smaller
            .into_iter()
            .find(|smaller| differs(case, ours, smaller))
        {
            Some(smaller) => input = smaller,
            None => break,
        }
    }
    input
}

fn describe<C: Case>(
    case: &C,
    ours: &impl Fn(&C::Input) -> Answered<C>,
    input: &C::Input,
) -> String {
    let expected = match expect(case, input) {
        Ok(outcome) => show(&outcome),
        Err(panic) => format!("the Rust panics: {panic}"),
    };
    let (input_shown, ours_shown) = (show(input), show(&ours(input)));
    format!("  input: {input_shown}\n  expected: {expected}\n  Netbuff: {ours_shown}")
}

fn show(value: &impl fmt::Debug) -> String {
    const MOST: usize = 4000;
    let text = format!("{value:?}");
    match text.char_indices().nth(MOST) {
        Some((end, _)) => format!("{} ...", &text[..end]),
        None => text,
    }
}
