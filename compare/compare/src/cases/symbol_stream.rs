use calls::Layout;

use crate::rng::Rng;

/// Symbols that read a group to its end: for each varblock and channel a count and its places until
/// it is used up, at most one in `sparseness` of them filled.
pub fn symbol_stream(rng: &mut Rng, group: &Layout, sparseness: usize) -> Vec<u32> {
    let mut symbols = Vec::new();
    for places in channels(group) {
        used_up(rng, places, sparseness, &mut symbols);
    }
    symbols
}

/// The same, but one of its channels has a count of all its places and a 0 among them.
pub fn crowded_stream(rng: &mut Rng, group: &Layout, sparseness: usize) -> Vec<u32> {
    stream_but(rng, group, sparseness, crowded)
}

/// The same, but the places of one of its channels end with count remaining, unless that is too much
/// for a context.
pub fn remaining_stream(rng: &mut Rng, group: &Layout, sparseness: usize) -> Vec<u32> {
    stream_but(rng, group, sparseness, remaining)
}

/// How the symbols of one channel are written: its places, and of how many at most one is filled.
type Write = fn(&mut Rng, usize, usize, &mut Vec<u32>);

/// A stream in which one channel, once in four times the last of all, is written otherwise; of a group
/// without blocks, the stream of none.
fn stream_but(rng: &mut Rng, group: &Layout, sparseness: usize, otherwise: Write) -> Vec<u32> {
    let count = channels(group).count();
    let chosen = if rng.once_in(4) {
        count.saturating_sub(1)
    } else {
        rng.below(count)
    };
    let mut symbols = Vec::new();
    for (channel, places) in channels(group).enumerate() {
        let write = if channel == chosen {
            otherwise
        } else {
            used_up
        };
        write(rng, places, sparseness, &mut symbols);
    }
    symbols
}

/// How many places each channel of each varblock has.
fn channels(group: &Layout) -> impl Iterator<Item = usize> + '_ {
    let sides = group
        .kinds
        .iter()
        .filter_map(|&kind| paper::kind_sides(kind));
    sides.flat_map(|(wide, high)| [63 * wide * high; 3])
}

fn used_up(rng: &mut Rng, places: usize, sparseness: usize, symbols: &mut Vec<u32>) {
    let most = (places / sparseness).max(1);
    let count = match rng.below(8) {
        0 | 1 => 0,
        2 => most,
        _ => rng.below(most + 1),
    };
    let scattered = scattered(rng, places, count);
    let last = scattered.iter().rposition(|&symbol| symbol != 0);
    symbols.push(count as u32);
    symbols.extend(&scattered[..last.map_or(0, |last| last + 1)]);
}

fn crowded(rng: &mut Rng, places: usize, _: usize, symbols: &mut Vec<u32>) {
    let hole = rng.below(places);
    symbols.push(places as u32);
    symbols.extend((0..places).map(|place| if place == hole { 0 } else { coefficient(rng) }));
}

/// Mostly one of the count remains; by times as many as the last places have contexts for, which are
/// 32 for each block, or one more.
fn remaining(rng: &mut Rng, places: usize, sparseness: usize, symbols: &mut Vec<u32>) {
    let most = 32 * (places / 63);
    let remaining = match rng.below(8) {
        0 => most + rng.below(2),
        1 => rng.between(1, most),
        _ => 1,
    };
    let filled = rng.below((places / sparseness).max(1));
    let filled = filled.min(places - remaining);
    symbols.push((filled + remaining) as u32);
    symbols.extend(scattered(rng, places, filled));
}

/// A symbol for each place, so many of them not 0.
fn scattered(rng: &mut Rng, places: usize, filled: usize) -> Vec<u32> {
    let mut left = filled;
    let symbol = |place| {
        let here = left > 0 && rng.below(places - place) < left;
        left -= usize::from(here);
        if here {
            coefficient(rng)
        } else {
            0
        }
    };
    (0..places).map(symbol).collect()
}

fn coefficient(rng: &mut Rng) -> u32 {
    match rng.below(8) {
        0 => rng.any_u32().max(1),
        _ => rng.between(1, 9) as u32,
    }
}
