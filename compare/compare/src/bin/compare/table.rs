//! The calls that are compared.

use std::time::Instant;

use calls::Outcome;
use compare::cases::{
    AlikeCase, Case, CensusCase, CoefficientsCase, ColumnCountCase, ContextsCase, CutCase,
    LayoutCase, OrderCase, OrdersCase, PlacesCase, ReaderCase, SignedCase, TransformCase,
};
use compare::driver::{Comparison, Report, Run, Watch};
use compare::progress::Progress;
use compare::rounds;

use crate::options::Options;

type Make = fn(&Options) -> Box<dyn Comparison>;

const CALLS: [(&str, Make); 13] = [
    (ColumnCountCase::NAME, |options| {
        comparison(options, ColumnCountCase, ours::column_count)
    }),
    (OrderCase::NAME, |options| {
        comparison(options, OrderCase::new(options.seed), ours::order)
    }),
    (PlacesCase::NAME, |options| {
        comparison(options, PlacesCase::new(), |input| {
            ours::places_fit(&input.store)
        })
    }),
    (TransformCase::NAME, |options| {
        comparison(options, TransformCase, ours::transform)
    }),
    (SignedCase::NAME, |options| {
        comparison(options, SignedCase, ours::signed)
    }),
    (ReaderCase::NAME, |options| {
        comparison(options, ReaderCase, ours::read)
    }),
    (LayoutCase::NAME, |options| {
        comparison(options, LayoutCase, ours::layout)
    }),
    (CutCase::NAME, |options| {
        comparison(options, CutCase, ours::cut)
    }),
    (AlikeCase::NAME, |options| {
        comparison(options, AlikeCase, ours::alike)
    }),
    (ContextsCase::NAME, |options| {
        comparison(options, ContextsCase, ours::contexts)
    }),
    (OrdersCase::NAME, |options| {
        comparison(options, OrdersCase, ours::orders)
    }),
    (CoefficientsCase::NAME, |options| {
        comparison(options, CoefficientsCase::new(options.seed), |input| {
            ours::coefficients(&input.call)
        })
    }),
    (CensusCase::NAME, |options| {
        comparison(options, CensusCase::default(), ours::census)
    }),
];

pub fn names() -> Vec<&'static str> {
    CALLS.iter().map(|call| call.0).collect()
}

/// Compares the wanted calls, and tells whether all agree.
pub fn run(options: &Options) -> bool {
    let mut progress = Progress::new(Instant::now());
    let mut tell = |report: &Report| {
        if let Some(line) = progress.line(report, Instant::now()) {
            eprintln!("{line}");
        }
    };
    let watch: Watch = if options.progress {
        &mut tell
    } else {
        &mut |_| ()
    };
    let wanted = CALLS.iter().filter(|call| options.wants(call.0));
    let comparisons = wanted.map(|call| call.1(options));
    match options.total {
        None => one_by_one(options, comparisons, watch),
        Some(total) => {
            let mut comparisons: Vec<_> = comparisons.collect();
            rounds::run(&mut comparisons, total, watch);
            print!("{}", rounds::table(&comparisons));
            let difference = rounds::difference(&comparisons);
            difference.inspect(|report| println!("{report}")).is_none()
        }
    }
}

/// Each call for as long as the options say, one behind the other.
fn one_by_one(
    options: &Options,
    comparisons: impl Iterator<Item = Box<dyn Comparison>>,
    watch: Watch,
) -> bool {
    let mut agreed = true;
    for mut comparison in comparisons {
        comparison.advance(options.effort, watch);
        println!("{}", comparison.report());
        agreed &= comparison.report().difference.is_none();
    }
    agreed
}

/// The comparison lasts as long as the program, and so does its case.
fn comparison<C: Case + 'static>(
    options: &Options,
    case: C,
    ours: impl Fn(&C::Input) -> Outcome<C::Value, C::Buffers> + 'static,
) -> Box<dyn Comparison> {
    Box::new(Run::new(Box::leak(Box::new(case)), ours, options.seed))
}
