//! The Rust's context numbers. It has no call for them, but takes one for each coefficient that it
//! reads: the coefficient's entry among the 458 of its block context.

use calls::{Answer, Contexts, Refusal, Situation};
use jxl_vardct::oracle;
use paper::{COUNT_ENTRIES, ENTRIES_PER_CLUSTER, TRANSFORM_COUNT};

use crate::cases::single;
use crate::entries::Entries;
use crate::make::OrdersAndStore;

/// One cluster, so that there is one block context.
const CONTEXTS: Contexts = Contexts {
    count: 1,
    ..Contexts::ZERO
};
/// A coefficient that is not 0.
pub const FILLED: u32 = 1;

/// Walks of the Rust over the places of one varblock.
pub struct Walks {
    entries: Entries,
}

/// How a walk ended, and the context number of each coefficient that it read.
#[derive(Debug, PartialEq, Eq)]
pub struct Walked {
    pub answer: Answer<usize>,
    pub contexts: Vec<u32>,
}

impl Walks {
    pub fn new() -> Self {
        Self {
            entries: Entries::new(ENTRIES_PER_CLUSTER),
        }
    }

    /// The walk over the first channel of a varblock: symbols are its count and coefficients, no more.
    pub fn walk(&self, transform: u8, symbols: &[u32]) -> Walked {
        let call =
            |orders: &OrdersAndStore| orders.coefficients(single(transform), CONTEXTS, symbols);
        let logged = self.entries.logged(call, oracle::coefficients);
        let context = |&entry: &usize| {
            let context = entry.checked_sub(COUNT_ENTRIES);
            context.expect("an entry of a coefficient") as u32
        };
        Walked {
            answer: logged.outcome.answer,
            contexts: logged.entries.iter().skip(1).map(context).collect(),
        }
    }

    /// The context number in a situation that is not refused, where a walk comes to it.
    pub fn context(&self, situation: &Situation) -> Option<u32> {
        let symbols = symbols_to(situation)?;
        let Walked { answer, contexts } = self.walk(transform_of(situation.blocks), &symbols);
        let all_read = Err(Refusal::at(15, symbols.len(), 0));
        assert_eq!(answer, all_read, "no walk to {situation:?}");
        contexts.last().copied()
    }
}

impl Default for Walks {
    fn default() -> Self {
        Self::new()
    }
}

/// Whether a walk comes to a situation: at the first place the count says what prev is.
pub fn is_walked_to(situation: &Situation) -> bool {
    let said = u32::from(situation.count <= 4 * situation.blocks);
    situation.place > 0 || situation.prev == said
}

/// The count and the coefficients with which a walk comes to a situation and reads its coefficient,
/// the last: all before it are 0, but for the one just before where prev is 1.
fn symbols_to(situation: &Situation) -> Option<Vec<u32>> {
    let place = situation.place as usize;
    let before = if place > 0 { situation.prev } else { 0 };
    let mut symbols = vec![0; place + 2];
    symbols[place..].copy_from_slice(&[before, FILLED]);
    symbols[0] = situation.count + before;
    is_walked_to(situation).then_some(symbols)
}

/// The first transform of so many blocks.
fn transform_of(blocks: u32) -> u8 {
    let of_blocks = |&transform: &u8| {
        let sides = paper::transform_sides(transform.into());
        sides.is_some_and(|(wide, high)| wide * high == blocks as usize)
    };
    (0..TRANSFORM_COUNT as u8)
        .find(of_blocks)
        .expect("a power of two up to 1,024")
}
