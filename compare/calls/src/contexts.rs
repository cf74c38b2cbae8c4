use std::fmt;

/// Most places of a threshold list, and of the block map (39 for each of at most 64).
pub const LIST_MOST: usize = 15;
pub const MAP_MOST: usize = 39 * 64;

/// The context call (document 01, Block contexts), with the lent count and map.
#[derive(Debug, Clone)]
pub struct ContextsCall {
    pub bytes: Vec<u8>,
    pub count: u32,
    pub map: Vec<u8>,
}

/// A context record: four lists with their lengths, and the map, unused places 0.
#[derive(Clone, PartialEq, Eq)]
pub struct Contexts {
    pub count: u32,
    /// Of the LF lists of channels 0, 1, 2, then of the qf list.
    pub lengths: [u32; 4],
    /// The list of channel c from 15 c on.
    pub lf: [i32; 3 * LIST_MOST],
    pub qf: [u32; LIST_MOST],
    pub map: [u8; MAP_MOST],
}

/// Lists are shown up to their last number other than 0.
impl fmt::Debug for Contexts {
    fn fmt(&self, f: &mut fmt::Formatter<'_>) -> fmt::Result {
        f.debug_struct("Contexts")
            .field("count", &self.count)
            .field("lengths", &self.lengths)
            .field("lf", &before_zeros(&self.lf))
            .field("qf", &before_zeros(&self.qf))
            .field("map", &before_zeros(&self.map))
            .finish()
    }
}

fn before_zeros<T: Default + PartialEq>(list: &[T]) -> &[T] {
    let zero = T::default();
    let last = list.iter().rposition(|number| *number != zero);
    &list[..last.map_or(0, |last| last + 1)]
}

impl Contexts {
    pub const ZERO: Self = Self {
        count: 0,
        lengths: [0; 4],
        lf: [0; 3 * LIST_MOST],
        qf: [0; LIST_MOST],
        map: [0; MAP_MOST],
    };

    /// What the lent record holds before a call: a refusal leaves it so.
    pub const USED: Self = Self {
        count: 77,
        lengths: [9; 4],
        lf: [-7; 3 * LIST_MOST],
        qf: [7; LIST_MOST],
        map: [0xA5; MAP_MOST],
    };

    /// The product of the four (length + 1), where no list is longer than 15.
    pub fn bsize(&self) -> usize {
        self.lengths
            .map(|length| length as usize + 1)
            .iter()
            .product()
    }

    /// The used places of the LF list of a channel.
    pub fn lf_list(&self, channel: usize) -> &[i32] {
        &self.lf[LIST_MOST * channel..][..self.lengths[channel] as usize]
    }

    /// The used places of the qf list.
    pub fn qf_list(&self) -> &[u32] {
        &self.qf[..self.lengths[3] as usize]
    }

    /// The used places of the map.
    pub fn used_map(&self) -> &[u8] {
        &self.map[..39 * self.bsize()]
    }
}
