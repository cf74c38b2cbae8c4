//! Inputs and outcomes of each call as the body of a record: the numbers that the call takes, then
//! its lists, then its answer.

use calls::{
    list_length, list_start, AlikeCall, CoefficientBuffers, ColumnCount, ColumnCountCall, Contexts,
    ContextsCall, CutCall, GroupBuffers, Layout, LayoutBuffers, LayoutCall, OrdersCall, Outcome,
    Situation, Store, Transform, ORDER_COUNT, STORE_LENGTH,
};
use compare::cases::CoefficientsInput;

use crate::writer::{Body, Element};

pub fn transform(body: &mut Body, &number: &u32, outcome: &Outcome<Transform, ()>) {
    body.number(number);
    body.answer(&outcome.answer);
    let facts = outcome.answer.map_or([0; 4], |read| {
        [read.wide, read.high, read.order, usize::from(read.turns)]
    });
    body.sizes(facts);
}

pub fn column_count(body: &mut Body, call: &ColumnCountCall, outcome: &Outcome<ColumnCount, ()>) {
    body.numbers([call.width, call.height]);
    body.numbers(call.modes);
    body.bytes(&call.bytes);
    body.answer(&outcome.answer);
    let (count, bits) = outcome
        .answer
        .map_or((0, 0), |read| (read.count, read.bits_read));
    body.number(count);
    body.size(bits);
}

pub fn layout(body: &mut Body, call: &LayoutCall, outcome: &Outcome<usize, LayoutBuffers>) {
    body.numbers([call.width, call.height]);
    body.numbers(call.modes);
    body.number(u32::from(call.filter.is_some()));
    body.number(call.filter.unwrap_or(0.0).to_bits());
    body.numbers(call.lookup.map(f32::to_bits));
    body.number(call.scale);
    let lent = &call.buffers;
    body.sizes([lent.kinds.len(), lent.hf_mul.len(), lent.sigma.len()]);
    body.list(&call.types);
    body.list(&call.muls);
    body.list(&call.sharpness);
    body.answer(&outcome.answer);
    body.size(*outcome.answer.as_ref().unwrap_or(&0));
    body.digest(&outcome.buffers.kinds);
    body.digest(&outcome.buffers.hf_mul);
    body.digest(&outcome.buffers.sigma);
}

pub fn cut(body: &mut Body, call: &CutCall, outcome: &Outcome<(usize, usize), GroupBuffers>) {
    body.sizes([call.layout.bw, call.layout.bh, call.group]);
    body.sizes([call.kinds.len(), call.hf_mul.len()]);
    layout_lists(body, &call.layout);
    body.answer(&outcome.answer);
    let (bw, bh) = outcome.answer.unwrap_or((0, 0));
    body.sizes([bw, bh]);
    body.digest(&outcome.buffers.0);
    body.digest(&outcome.buffers.1);
}

pub fn alike(body: &mut Body, call: &AlikeCall, outcome: &Outcome<bool, ()>) {
    for lent in [&call.left, &call.right] {
        body.sizes([lent.layout.bw, lent.layout.bh]);
    }
    for lent in [&call.left, &call.right] {
        layout_lists(body, &lent.layout);
        body.list(&lent.sigma);
    }
    body.answer(&outcome.answer);
    body.number(u32::from(outcome.answer == Ok(true)));
}

fn layout_lists(body: &mut Body, layout: &Layout) {
    body.bytes(&layout.kinds);
    body.list(&layout.hf_mul);
}

pub fn contexts(body: &mut Body, call: &ContextsCall, outcome: &Outcome<usize, Contexts>) {
    body.number(call.count);
    body.bytes(&call.bytes);
    body.bytes(&call.map);
    body.answer(&outcome.answer);
    body.size(*outcome.answer.as_ref().unwrap_or(&0));
    let record = match outcome.answer {
        Ok(_) => &outcome.buffers,
        Err(_) => &Contexts::ZERO,
    };
    body.number(record.count);
    body.digest(&record.lengths);
    body.digest(&record.lf);
    body.digest(&record.qf);
    body.digest(&record.map);
}

pub fn orders(body: &mut Body, call: &OrdersCall, outcome: &Outcome<usize, Store>) {
    body.size(call.store.len());
    body.bytes(&call.bytes);
    body.list(&call.symbols);
    body.answer(&outcome.answer);
    body.size(*outcome.answer.as_ref().unwrap_or(&0));
    let store = &outcome.buffers;
    for order in 0..ORDER_COUNT {
        for channel in 0..3 {
            let range = list_start(order, channel)..list_start(order, channel) + list_length(order);
            let fits = store.len() == STORE_LENGTH;
            body.digest(if fits { &store[range] } else { &[] });
        }
    }
}

pub fn coefficients(
    body: &mut Body,
    input: &CoefficientsInput,
    outcome: &Outcome<usize, CoefficientBuffers>,
) {
    let call = &input.call;
    body.sizes([call.group.bw, call.group.bh]);
    body.number(call.contexts.count);
    body.numbers(call.contexts.lengths);
    body.number(u32::from(call.lf.is_some()));
    changed_store(body, input);
    body.number(call.presets);
    body.size(call.cluster_map.len());
    body.number(call.shift);
    let lent = &call.buffers;
    body.sizes(lent.grids.each_ref().map(Vec::len));
    body.size(lent.log.len());
    layout_lists(body, &call.group);
    body.list(trimmed(&call.contexts.lf));
    body.list(trimmed(&call.contexts.qf));
    body.bytes(trimmed(&call.contexts.map));
    let none = [(); 3].map(|()| Vec::new());
    let lf = call.lf.as_ref().unwrap_or(&none);
    lf.iter().for_each(|grid| body.list(grid));
    body.bytes(&input.orders.bytes);
    body.list(&input.orders.symbols);
    body.bytes(&call.bytes);
    body.list(&call.symbols);
    body.answer(&outcome.answer);
    body.size(*outcome.answer.as_ref().unwrap_or(&0));
    let left = &outcome.buffers;
    left.grids.iter().for_each(|grid| body.digest(grid));
    body.digest(&left.log);
}

pub fn census(body: &mut Body, situation: &Situation, outcome: &Outcome<u32, ()>) {
    body.numbers([situation.blocks, situation.count]);
    body.numbers([situation.place, situation.prev]);
    body.answer(&outcome.answer);
    body.number(outcome.answer.unwrap_or(0));
}

/// A list of a fixed length without the zeros at its end.
fn trimmed<E: Element>(list: &[E]) -> &[E] {
    let used = list.iter().rposition(|element| element.pattern() != 0);
    &list[..used.map_or(0, |last| last + 1)]
}

/// How the lent store differs from the one that the orders wrote: place, number, length.
fn changed_store(body: &mut Body, input: &CoefficientsInput) {
    let (lent, written) = (&input.call.store, &input.orders.store);
    let mut pairs = lent.iter().zip(written.iter());
    let place = pairs.position(|(lent, written)| lent != written);
    body.size(place.unwrap_or(STORE_LENGTH));
    body.number(place.map_or(0, |place| u32::from(lent[place])));
    body.size(lent.len());
}
