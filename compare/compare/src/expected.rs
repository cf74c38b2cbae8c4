//! What the papers expect of each call: the checks that only they have, then the Rust; where a request
//! of document 02 asks for another answer than the Rust's, or for one that the Rust does not give, the
//! model.

use calls::{
    Answer, CoefficientBuffers, CoefficientsCall, ColumnCount, ColumnCountCall, Contexts,
    ContextsCall, LayoutBuffers, LayoutCall, OrdersCall, Outcome, Refusal, Situation, Store,
    Transform,
};
use jxl_vardct::oracle::{self, Orders};

use crate::walks::Walks;

/// The whole number counts, where the Rust takes one byte.
pub fn transform(number: u32) -> Answer<Transform> {
    let byte = u8::try_from(number).map_err(|_| Refusal::plain(5))?;
    oracle::transform(byte)
}

pub fn column_count(call: &ColumnCountCall) -> Answer<ColumnCount> {
    match paper::column_count_before_work(call) {
        Some(refusal) => Err(refusal),
        None => oracle::column_count(call),
    }
}

pub fn layout(call: &LayoutCall) -> Outcome<usize, LayoutBuffers> {
    match paper::layout_before_work(call) {
        Some(refusal) => Outcome::untouched(refusal, call.buffers.clone()),
        None if has_types_above_a_byte(call) => paper::layout(call),
        None => oracle::layout(call),
    }
}

/// Whether a type is not 0 to 255. The Rust looks at its low eight bits alone, document 02's No. 5 at
/// all of them, so such a list is not lent to the Rust.
pub fn has_types_above_a_byte(call: &LayoutCall) -> bool {
    call.types
        .iter()
        .any(|&number| u8::try_from(number).is_err())
}

/// The bits read, and the record, which a refusal leaves as it was.
pub fn contexts(call: &ContextsCall) -> Outcome<usize, Contexts> {
    let refused = |asked| paper::clusters_refused(asked, call.count, &call.map);
    let read = oracle::contexts(call).and_then(|read| match read.asked.and_then(refused) {
        Some(refusal) => Err(refusal),
        None => Ok(read),
    });
    match read {
        Ok(read) => Outcome {
            answer: Ok(read.bits_read),
            buffers: oracle::paper_form(&read.contexts),
        },
        Err(refusal) => Outcome::untouched(refusal, Contexts::USED),
    }
}

/// The number of symbols read, and the store.
pub fn orders(call: &OrdersCall) -> Outcome<usize, Store> {
    if !paper::store_fits(&call.store) {
        return Outcome::untouched(Refusal::plain(1), call.store.clone());
    }
    match oracle::orders(&call.bytes, &call.symbols, &[]) {
        Ok(orders) => Outcome {
            answer: Ok(orders.symbols_read),
            buffers: orders.store(),
        },
        Err(refusal) => Outcome {
            answer: Err(refusal),
            buffers: oracle::store_after(refusal, &call.store),
        },
    }
}

/// The orders are those of the call's store, and their cluster map begins with the call's. A call in
/// which the model finds that places end with count remaining is not lent to the Rust, which goes on
/// there.
pub fn coefficients(
    call: &CoefficientsCall,
    orders: &Orders,
) -> Outcome<usize, CoefficientBuffers> {
    if let Some(refusal) = paper::coefficients_before_work(call) {
        return Outcome::untouched(refusal, call.buffers.clone());
    }
    let modelled = paper::coefficients(call);
    if count_remains(&modelled) {
        modelled
    } else {
        oracle::coefficients(call, orders)
    }
}

/// Whether a coefficient call is refused since places end with count remaining (document 02, No. 8):
/// 24, which the Rust has no error for.
pub fn count_remains(outcome: &Outcome<usize, CoefficientBuffers>) -> bool {
    outcome.answer.is_err_and(|refusal| refusal.number == 24)
}

/// The Rust's number where a walk comes to the situation, else the model's.
pub fn census(situation: &Situation, walks: &Walks) -> Answer<u32> {
    match paper::census_before_work(situation) {
        Some(refusal) => Err(refusal),
        None => {
            let context = walks.context(situation);
            Ok(context.unwrap_or_else(|| paper::census(situation)))
        }
    }
}
