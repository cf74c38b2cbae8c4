//! The calls to compare: what is expected of each, and inputs for it.

mod alike;
mod census;
mod coefficient_faults;
mod coefficient_smaller;
mod coefficients;
mod column_count;
mod contexts;
mod cut;
mod digits;
mod last_places;
mod layout;
mod orders;
mod placing;
mod reader;
mod signed;
mod stores;
mod strengths;
mod strips;
mod symbol_stream;
mod transform;

use std::fmt::Debug;

use calls::Outcome;

use crate::rng::Rng;

pub use alike::AlikeCase;
pub use census::{situation, CensusCase};
pub use coefficients::{CoefficientsCase, CoefficientsInput, MAP_MOST};
pub use column_count::ColumnCountCase;
pub use contexts::ContextsCase;
pub use cut::CutCase;
pub use layout::LayoutCase;
pub use orders::OrdersCase;
pub use placing::{fill, single};
pub use reader::ReaderCase;
pub use signed::SignedCase;
pub use stores::{OrderCase, PlacesCase, PlacesInput};
pub use symbol_stream::symbol_stream;
pub use transform::TransformCase;

pub trait Case {
    const NAME: &'static str;
    /// How many calls' share of a given time this one has.
    const SHARE: u32 = 1;
    type Input: Clone + Debug;
    type Value: Debug + PartialEq;
    type Buffers: Debug + PartialEq;

    fn expected(&self, input: &Self::Input) -> Outcome<Self::Value, Self::Buffers>;

    /// Whether what is expected of this input, behind the checks before work, is the model's answer: a
    /// request of document 02 keeps it from the Rust, or the Rust does not come to it; told by calls that
    /// have such inputs.
    fn by_model(
        &self,
        _input: &Self::Input,
        _expected: &Outcome<Self::Value, Self::Buffers>,
    ) -> Option<bool> {
        None
    }

    /// Whether a side of the input's grid is 0, so that it has no blocks (document 02, No. 2); told by
    /// calls that are lent sides, for likeness of either layout.
    fn without_blocks(&self, _input: &Self::Input) -> Option<bool> {
        None
    }

    /// How many short inputs there are, and each by its number.
    fn short_count(&self) -> usize;
    fn short(&self, number: usize) -> Self::Input;

    fn random(&self, rng: &mut Rng) -> Self::Input;

    /// A number that tells inputs apart, for calls whose different inputs are counted.
    fn digest(&self, _input: &Self::Input) -> Option<u64> {
        None
    }

    /// Inputs that are smaller than the given one in some way, the boldest cuts first. From none of
    /// them do further ones lead back.
    fn smaller(&self, input: &Self::Input) -> Vec<Self::Input>;
}

/// The list without a part of it: halves, then quarters, down to single elements.
fn shorter<T: Clone>(list: &[T]) -> Vec<Vec<T>> {
    let mut found = Vec::new();
    let mut part = list.len();
    while part > 0 {
        let starts = (0..list.len()).step_by(part).rev().take(16);
        found.extend(starts.map(|start| {
            let end = (start + part).min(list.len());
            [&list[..start], &list[end..]].concat()
        }));
        part /= 2;
    }
    found
}

/// The list with a part of it replaced by plain elements: the whole, halves, down to single ones.
fn plainer<T: Clone + PartialEq>(list: &[T], plain: T) -> Vec<Vec<T>> {
    plainer_where(list, |each| *each != plain, &plain)
}

/// The same, of elements of which a test holds alone, as it does not of the plain one.
fn plainer_where<T: Clone>(list: &[T], test: impl Fn(&T) -> bool, plain: &T) -> Vec<Vec<T>> {
    let mut found = Vec::new();
    let mut part = list.len();
    while part > 0 {
        let most = if part == 1 { 64 } else { 8 };
        let changed = |start: &usize| list[*start..].iter().take(part).any(&test);
        let starts = (0..list.len()).step_by(part).filter(changed);
        found.extend(starts.take(most).map(|start| {
            let mut list = list.to_vec();
            let part = list[start..].iter_mut().take(part);
            part.filter(|each| test(each))
                .for_each(|each| *each = plain.clone());
            list
        }));
        part /= 2;
    }
    found
}

/// Those of the given values that are other than the one at hand.
fn simpler<T: PartialEq, const N: usize>(value: &T, values: [T; N]) -> Vec<T> {
    values
        .into_iter()
        .filter(|simple| simple != value)
        .collect()
}

/// Those of the given values that are below the one at hand.
fn less<T: PartialOrd, const N: usize>(value: &T, values: [T; N]) -> Vec<T> {
    values.into_iter().filter(|less| less < value).collect()
}

/// Copies of an input, each changed in one way.
fn variants<I: Clone, T>(input: &I, values: Vec<T>, set: impl Fn(&mut I, T)) -> Vec<I> {
    let change = |value| {
        let mut copy = input.clone();
        set(&mut copy, value);
        copy
    };
    values.into_iter().map(change).collect()
}
