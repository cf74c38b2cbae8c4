//! The context census (document 02, No. 9): the model's numbers are those that the Rust takes when it
//! reads coefficients; which of them its walks meet; and what the comparison's inputs find.
#![cfg(live)]

use std::collections::BTreeSet;

use calls::{Outcome, Refusal, Situation};
use compare::cases::CensusCase;
use compare::driver::{run, Effort};
use compare::rng::Rng;
use compare::walks::{is_walked_to, Walked, Walks, FILLED};
use paper::{COEFFICIENT_ENTRIES, PLACES, TRANSFORM_COUNT};

const DCT8: u8 = 0;
const ONE_BLOCK: usize = PLACES as usize;

/// Walks over so many places that use up their count: all are filled, some of the first, of the last,
/// at equal distances, or at random. A walk is its count and its coefficients up to the last that is
/// filled.
fn used_up(rng: &mut Rng, places: usize) -> Vec<Vec<u32>> {
    let mut walks = Vec::new();
    for part in [1, 2, 4, 16] {
        let mut walk = |is_filled: &mut dyn FnMut(usize) -> bool| {
            let filled: Vec<_> = (0..places).filter(|&place| is_filled(place)).collect();
            let mut symbols = vec![0; filled.last().map_or(0, |last| last + 1)];
            filled.iter().for_each(|&place| symbols[place] = FILLED);
            walks.push([vec![filled.len() as u32], symbols].concat());
        };
        walk(&mut |place| place < places / part);
        walk(&mut |place| place >= places - places / part);
        walk(&mut |place| place % part == 0);
        walk(&mut |_| rng.once_in(part + 1));
    }
    walks
}

/// The situations that a walk comes to.
fn situations(blocks: u32, symbols: &[u32]) -> Vec<Situation> {
    let mut count = symbols[0];
    let mut prev = u32::from(count <= 4 * blocks);
    let situation = |(place, &symbol): (usize, &u32)| {
        let here = Situation {
            blocks,
            count,
            place: place as u32,
            prev,
        };
        prev = u32::from(symbol != 0);
        count -= prev;
        here
    };
    symbols[1..].iter().enumerate().map(situation).collect()
}

/// So none of the numbers is 458 or more where no more are due than places remain, and 17 is not met.
#[test]
fn the_rust_takes_the_models_numbers() {
    let (walks, mut rng) = (Walks::new(), Rng::new(1));
    let mut sizes = BTreeSet::new();
    for transform in 0..TRANSFORM_COUNT as u8 {
        let (wide, high) = paper::transform_sides(transform.into()).expect("a transform");
        let blocks = (wide * high) as u32;
        for symbols in used_up(&mut rng, ONE_BLOCK * wide * high) {
            let walked = walks.walk(transform, &symbols);
            let modelled = situations(blocks, &symbols).into_iter().map(|situation| {
                assert_eq!(paper::census_before_work(&situation), None);
                paper::census(&situation)
            });
            let modelled = Walked {
                answer: Err(Refusal::at(15, symbols.len(), 0)),
                contexts: modelled.collect(),
            };
            assert!(walked == modelled, "{transform}: {symbols:?}");
            let most = walked.contexts.iter().max();
            assert!(most.is_none_or(|&most| most < COEFFICIENT_ENTRIES as u32));
        }
        sizes.insert(blocks);
    }
    assert!(sizes.into_iter().eq((0..11).map(|power| 1 << power)));
}

/// The numbers of all situations of so many blocks that the Rust's walks come to.
fn met(blocks: u32) -> BTreeSet<u32> {
    let walks = Walks::new();
    let mut met = BTreeSet::new();
    for count in 1..=PLACES * blocks {
        for place in 0..=PLACES * blocks - count {
            for prev in [0, 1] {
                let situation = Situation {
                    blocks,
                    count,
                    place,
                    prev,
                };
                let context = walks.context(&situation);
                assert_eq!(context.is_some(), is_walked_to(&situation));
                let modelled = paper::census(&situation);
                assert_eq!(context.unwrap_or(modelled), modelled, "{situation:?}");
                met.extend(context);
            }
        }
    }
    met
}

fn not_met(met: &BTreeSet<u32>) -> Vec<u32> {
    let numbers = 0..COEFFICIENT_ENTRIES as u32;
    numbers.filter(|number| !met.contains(number)).collect()
}

/// These eight are the first place's, with the flag that the count does not say.
#[test]
fn all_numbers_but_eight_are_met_in_one_block() {
    let eight = [0, 62, 124, 187, 247, 305, 361, 413];
    assert_eq!(not_met(&met(1)), eight);
}

#[test]
fn all_numbers_are_met_in_two_blocks() {
    assert!(not_met(&met(2)).is_empty());
}

/// Walks in which more are due than places remain, all of which end in 17 or 24, meet four of the
/// eight: there 93 and 30 give what 123 and 0 give, and so on up the table.
#[test]
fn four_of_the_eight_are_met_where_places_are_too_few() {
    let walks = Walks::new();
    let contexts = |count, places: &[u32]| {
        let symbols = [&[count], places].concat();
        walks.walk(DCT8, &symbols).contexts
    };
    let mut met = BTreeSet::new();
    for count in 1..=PLACES {
        met.extend(contexts(count, &[0; ONE_BLOCK]));
        for filled in (0..ONE_BLOCK).filter(|_| count > 1) {
            let mut places = [0; ONE_BLOCK];
            places[filled] = FILLED;
            met.extend(contexts(count, &places));
        }
    }
    assert_eq!(not_met(&met), [0, 62, 124, 187]);
    let five_due_at_59 = [&[0; 58][..], &[FILLED, 0]].concat();
    assert_eq!(contexts(6, &five_due_at_59).last(), Some(&247));
}

/// 17 is met only where more are due than places remain, but not wherever they are.
#[test]
fn two_due_at_the_last_place_are_not_met_with_17() {
    let symbols = [&[2][..], &[0; 62], &[2]].concat();
    let last = situations(1, &symbols)[62];
    assert_eq!((last.count, last.place), (2, 62));
    let Walked { answer, contexts } = Walks::new().walk(DCT8, &symbols);
    assert_eq!(answer, Err(Refusal::at(15, 64, 0)), "all are read");
    assert_eq!(contexts.last(), Some(&122));
    let many = Walks::new().walk(DCT8, &[&[33][..], &[0; 62]].concat());
    assert_eq!(many.answer, Err(Refusal::at(17, 32, 0)));
}

type Change = fn(Situation) -> Situation;

/// Calls that take one situation for another.
const WRONG: [(&str, Change); 6] = [
    ("one more due", |call| Situation {
        count: call.count.saturating_add(1),
        ..call
    }),
    ("one place before", |call| Situation {
        place: call.place.saturating_sub(1),
        ..call
    }),
    ("blocks rounded up", |call| Situation {
        blocks: call.blocks.checked_next_power_of_two().unwrap_or(0),
        ..call
    }),
    ("blocks above 1,024", |call| Situation {
        blocks: call.blocks.min(1024),
        ..call
    }),
    ("the flag's low bit", |call| Situation {
        prev: call.prev % 2,
        ..call
    }),
    ("a sum that wraps", |call| {
        match call.count.checked_add(call.place) {
            Some(_) => call,
            None => Situation {
                count: 1,
                place: 0,
                ..call
            },
        }
    }),
];

#[test]
fn planted_differences_are_found() {
    for (what, wrong) in WRONG {
        let ours = |situation: &Situation| {
            let situation = wrong(*situation);
            let refusal = paper::census_before_work(&situation);
            Outcome {
                answer: refusal.map_or_else(|| Ok(paper::census(&situation)), Err),
                buffers: (),
            }
        };
        let report = run(&CensusCase::default(), ours, Effort::Inputs(4000), 1);
        assert!(report.difference.is_some(), "{what}");
    }
}
