//! The papers' examples, run through the Rust (where it has no such check, through the model of
//! the paper) and through Netbuff, held against the paper's words.

mod census;
mod coefficients;
mod layouts;
mod likeness;
mod orders;
mod reading;
mod strips;

use std::fmt;

use calls::{
    AlikeCall, Answer, CoefficientBuffers, CoefficientsCall, ColumnCount, ColumnCountCall,
    Contexts, ContextsCall, CutCall, GroupBuffers, LayoutBuffers, LayoutCall, OrdersCall, Outcome,
    Situation, Store, Transform,
};
use jxl_vardct::oracle::{self, Orders};

use crate::expected;
use crate::walks::Walks;

/// Those who answer the examples.
struct Calls {
    transform: fn(u32) -> Answer<Transform>,
    column_count: fn(&ColumnCountCall) -> Answer<ColumnCount>,
    layout: fn(&LayoutCall) -> Outcome<usize, LayoutBuffers>,
    /// Of a layout call that is accepted, in blocks.
    grid_sides: fn(&LayoutCall) -> (usize, usize),
    cut: fn(&CutCall) -> Outcome<(usize, usize), GroupBuffers>,
    alike: fn(&AlikeCall) -> Answer<bool>,
    contexts: fn(&ContextsCall) -> Outcome<usize, Contexts>,
    orders: fn(&OrdersCall) -> Outcome<usize, Store>,
    coefficients: fn(&CoefficientsCall, &Orders) -> Outcome<usize, CoefficientBuffers>,
    census: fn(&Situation, &Walks) -> Answer<u32>,
}

const RUST: Calls = Calls {
    transform: expected::transform,
    column_count: expected::column_count,
    layout: expected::layout,
    grid_sides: |call| oracle::grid_sides(call).expect("an accepted call"),
    cut: paper::cut,
    alike: paper::alike,
    contexts: expected::contexts,
    orders: expected::orders,
    coefficients: expected::coefficients,
    census: expected::census,
};

const NETBUFF: Calls = Calls {
    transform: |number| ours::transform(&number).answer,
    column_count: |call| ours::column_count(call).answer,
    layout: ours::layout,
    grid_sides: ours::grid_sides,
    cut: ours::cut,
    alike: |call| ours::alike(call).answer,
    contexts: ours::contexts,
    orders: ours::orders,
    coefficients: |call, _| ours::coefficients(call),
    census: |situation, _| ours::census(situation).answer,
};

/// What the Rust and Netbuff say of an example, and what the paper says.
pub struct Row {
    example: &'static str,
    rust: String,
    netbuff: String,
    paper: &'static str,
}

impl Row {
    pub fn differs(&self) -> bool {
        self.rust != self.paper || self.netbuff != self.paper
    }
}

impl fmt::Display for Row {
    fn fmt(&self, f: &mut fmt::Formatter<'_>) -> fmt::Result {
        write!(f, "{:<44} {}", self.example, self.netbuff)?;
        if self.differs() {
            write!(f, " (the Rust: {}; the paper: {})", self.rust, self.paper)?;
        }
        Ok(())
    }
}

pub fn rows() -> Vec<Row> {
    let netbuff = said(&NETBUFF).into_iter().map(|said| said.answer);
    let rows = said(&RUST).into_iter().zip(netbuff);
    rows.map(|(rust, netbuff)| Row {
        example: rust.example,
        rust: rust.answer,
        netbuff,
        paper: rust.paper,
    })
    .collect()
}

/// An example as one of them answers it. The paper's words are written down, not computed.
struct Said {
    example: &'static str,
    answer: String,
    paper: &'static str,
}

fn said(calls: &Calls) -> Vec<Said> {
    let parts = [
        layouts::said(calls),
        likeness::said(calls),
        reading::said(calls),
        orders::said(calls),
        coefficients::said(calls),
        census::said(calls),
        strips::said(calls),
    ];
    parts.into_iter().flatten().collect()
}

fn row(example: &'static str, answer: String, paper: &'static str) -> Said {
    Said {
        example,
        answer,
        paper,
    }
}

/// A refusal in the lister's words, or what was accepted.
fn say<T>(answer: Answer<T>, accepted: impl FnOnce(T) -> String) -> String {
    match answer {
        Ok(value) => accepted(value),
        Err(refusal) => format!("refused {} {} {}", refusal.number, refusal.x, refusal.y),
    }
}
