//! A plain model of what the papers add to the Rust: the checks before work, the cut, the likeness
//! test, the layout call on lists with a type that is not 0 to 255, the coefficient call where places
//! end with count remaining, and contexts of situations to which no walk comes; everywhere else the
//! Rust answers.
//!
//! Written from the papers and not from the Rattle code. Where the papers say that a thing is the
//! Rust's, it is taken from there: the transforms' sides, orders and turns (`transforms`), and the
//! walk, formulas and context tables of the coefficient reading (`walk`, `walk_contexts`). For these
//! the model is no witness beside the Rust; that it has them right is shown by the Rust, in the tests
//! of compare (`tables`, `counts`, `census`).

mod census;
mod coefficients;
mod contexts;
mod layout;
mod likeness;
mod placing;
mod record;
mod stores;
mod transforms;
mod walk;
mod walk_contexts;

pub use census::{census, census_before_work};
pub use coefficients::coefficients_before_work;
pub use contexts::{clusters_refused, is_fit};
pub use layout::{column_count_before_work, grid_sides, layout_before_work};
pub use likeness::alike;
pub use placing::layout;
pub use record::{cut, is_layout, kind_sides};
pub use stores::{places_inside, store_fits};
pub use transforms::{transform, transform_sides, TRANSFORM_COUNT};
pub use walk::{coefficients, PLACES};
pub use walk_contexts::{COEFFICIENT_ENTRIES, COUNT_ENTRIES, ENTRIES_PER_CLUSTER};

use calls::Refusal;

/// The first refusal of a chain of checks: the number whose condition does not hold.
pub fn first_refusal<const N: usize>(chain: [(u32, bool); N]) -> Option<Refusal> {
    let refused = chain.into_iter().find(|&(_, holds)| !holds);
    refused.map(|(number, _)| Refusal::plain(number))
}
