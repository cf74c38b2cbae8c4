//! The coefficient call behind its checks before work: the preset, then corner by corner and channel
//! by channel a count and its coefficients (document 01, Coefficients, which takes the walk from the
//! Rust; document 02, No. 8).

use calls::{
    list_start, Answer, CoefficientBuffers, CoefficientsCall, Outcome, Refusal, Transform,
};

use crate::record::FIRST_CORNER_KIND;
use crate::walk_contexts::{
    block_context, coefficient_context, coefficient_entries, count_entry, COEFFICIENT_ENTRIES,
};
use crate::{transform, ENTRIES_PER_CLUSTER};

/// The channels of a varblock in the order in which they are read.
const CHANNELS: [usize; 3] = [1, 0, 2];
/// Places for each block behind the low-frequency ones.
pub const PLACES: u32 = 63;
/// What is predicted at the group's first block.
const PREDICTED_FIRST: u32 = 32;

/// The coefficient call, of lengths, numbers, group, record and store that fit. Its answer is the
/// number of symbols read.
pub fn coefficients(call: &CoefficientsCall) -> Outcome<usize, CoefficientBuffers> {
    let mut buffers = call.buffers.clone();
    let answer = preset(call).and_then(|preset| Walk::new(call, preset, &mut buffers).group());
    Outcome { answer, buffers }
}

/// The preset's number: as many bits as the exponent of the least power of two not below presets,
/// which are 256 at most.
fn preset(call: &CoefficientsCall) -> Answer<usize> {
    let bits = call.presets.next_power_of_two().ilog2();
    let number = match (bits, call.bytes.first()) {
        (0, _) => 0,
        (_, None) => return Err(Refusal::at(3, 0, 0)),
        (_, Some(&byte)) => u32::from(byte) % (1 << bits),
    };
    if number >= call.presets {
        return Err(Refusal::at(14, bits as usize, 0));
    }
    Ok(number as usize)
}

/// A varblock by its corner.
struct Varblock {
    x: usize,
    y: usize,
    blocks: u32,
    transform: Transform,
}

/// How far the reading has come.
struct Walk<'a> {
    call: &'a CoefficientsCall,
    /// The preset's part of the cluster map.
    clusters: &'a [u8],
    /// For each channel and x what the last count there is for each block, rounded up.
    rows: [Vec<u32>; 3],
    read: usize,
    buffers: &'a mut CoefficientBuffers,
}

impl<'a> Walk<'a> {
    fn new(call: &'a CoefficientsCall, preset: usize, buffers: &'a mut CoefficientBuffers) -> Self {
        let entries = ENTRIES_PER_CLUSTER * call.contexts.count as usize;
        Self {
            call,
            clusters: &call.cluster_map[entries * preset..][..entries],
            rows: std::array::from_fn(|_| vec![0; call.group.bw]),
            read: 0,
            buffers,
        }
    }

    fn group(&mut self) -> Answer<usize> {
        let group = &self.call.group;
        for (cell, &kind) in group.kinds.iter().enumerate() {
            let number = kind.checked_sub(FIRST_CORNER_KIND);
            let Some(transform) = number.and_then(transform) else {
                continue;
            };
            let varblock = Varblock {
                x: cell % group.bw,
                y: cell / group.bw,
                blocks: (transform.wide * transform.high) as u32,
                transform,
            };
            for turn in 0..CHANNELS.len() {
                self.channel(&varblock, turn)?;
            }
        }
        Ok(self.read)
    }

    fn channel(&mut self, varblock: &Varblock, turn: usize) -> Answer<()> {
        let cell = varblock.y * self.call.group.bw + varblock.x;
        let context = block_context(self.call, cell, varblock.transform.order, turn);
        let count = self.count(varblock, CHANNELS[turn], context)?;
        self.places(varblock, CHANNELS[turn], context, count)
    }

    /// The count of a channel; its row keeps what that is for each block.
    fn count(&mut self, varblock: &Varblock, channel: usize, context: usize) -> Answer<u32> {
        let predicted = self.predicted(varblock, channel);
        let count = self.symbol(count_entry(self.call, context, predicted))?;
        if count > PLACES * varblock.blocks {
            return Err(self.refused(16));
        }
        let (x, wide) = (varblock.x, varblock.transform.wide);
        self.rows[channel][x..x + wide].fill(count.div_ceil(varblock.blocks));
        Ok(count)
    }

    /// From the counts above and to the left.
    fn predicted(&self, varblock: &Varblock, channel: usize) -> u32 {
        let row = &self.rows[channel];
        match (varblock.x, varblock.y) {
            (0, 0) => PREDICTED_FIRST,
            (0, _) => row[0],
            (x, 0) => row[x - 1],
            (x, _) => (row[x] + row[x - 1]).div_ceil(2),
        }
    }

    /// One symbol for each place until as many as the count says were not 0. When the last place is
    /// passed with count remaining, that is 24.
    fn places(
        &mut self,
        varblock: &Varblock,
        channel: usize,
        context: usize,
        count: u32,
    ) -> Answer<()> {
        let blocks = varblock.blocks;
        let first_entry = coefficient_entries(self.call, context);
        let mut remaining = count;
        let mut filled_before = count <= 4 * blocks;
        for place in 0..PLACES * blocks {
            if remaining == 0 {
                return Ok(());
            }
            let entry = coefficient_context(remaining - 1, place, blocks, filled_before);
            if entry >= COEFFICIENT_ENTRIES {
                return Err(self.refused(17));
            }
            let symbol = self.symbol(first_entry + entry)?;
            filled_before = symbol != 0;
            if filled_before {
                self.add(varblock, channel, place, symbol);
                remaining -= 1;
            }
        }
        match remaining {
            0 => Ok(()),
            _ => Err(self.refused(24)),
        }
    }

    /// Adds a coefficient at a stored place, which is turned where the transform turns.
    fn add(&mut self, varblock: &Varblock, channel: usize, place: u32, symbol: u32) {
        let transform = &varblock.transform;
        let start = list_start(transform.order, channel);
        let stored = start + 2 * (varblock.blocks + place) as usize;
        let (x, y) = (self.call.store[stored], self.call.store[stored + 1]);
        let (x, y) = if transform.turns { (y, x) } else { (x, y) };
        let row = 8 * varblock.y + usize::from(y);
        let cell = row * 8 * self.call.group.bw + 8 * varblock.x + usize::from(x);
        let coefficient = signed(symbol).wrapping_shl(self.call.shift);
        let sum = &mut self.buffers.grids[channel][cell];
        *sum = sum.wrapping_add(coefficient);
    }

    /// One symbol, the cluster of its entry logged.
    fn symbol(&mut self, entry: usize) -> Answer<u32> {
        let symbol = self.call.symbols.get(self.read).copied();
        let symbol = symbol.ok_or(self.refused(15))?;
        self.buffers.log[self.read] = self.clusters[entry];
        self.read += 1;
        Ok(symbol)
    }

    /// A refusal behind the symbols read so far.
    fn refused(&self, number: u32) -> Refusal {
        Refusal::at(number, self.read, 0)
    }
}

/// Even u is u / 2, odd u is -(u + 1) / 2.
fn signed(u: u32) -> i32 {
    let u = i64::from(u);
    let number = match u % 2 {
        0 => u / 2,
        _ => -(u + 1) / 2,
    };
    number as i32
}
