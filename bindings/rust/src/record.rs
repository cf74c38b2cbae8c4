use netbuff_sys as sys;

use crate::refusal::call;
use crate::Result;

#[cfg(feature = "alloc")]
use alloc::{vec, vec::Vec};

/// The sides of a grid of blocks, and the lengths that go by them.
#[derive(Debug, Copy, Clone, Default, PartialEq, Eq)]
pub struct Sides {
    /// How many blocks wide.
    pub bw: usize,
    /// How many blocks high.
    pub bh: usize,
}

impl Sides {
    /// Blocks: the length of kinds, hf_mul, sigma, sharpness and of each LF grid.
    pub fn blocks(self) -> usize {
        self.bw.saturating_mul(self.bh)
    }

    /// Cells, 64 for each block: the length of each grid of coefficients.
    pub fn cells(self) -> usize {
        self.blocks().saturating_mul(64)
    }

    /// The least length of a cluster log, 192 for each block; no call reads more symbols.
    pub fn log_length(self) -> usize {
        self.blocks().saturating_mul(192)
    }
}

/// A varblock of a layout or group.
#[derive(Debug, Copy, Clone, PartialEq, Eq)]
pub struct Varblock {
    /// Of its corner, the block at its upper left, in blocks.
    pub x: usize,
    /// Of its corner, in blocks.
    pub y: usize,
    /// Its transform's number ([`transform`](crate::transform()) gives its sides).
    pub transform: u32,
    /// Its quantisation multiplier.
    pub hf_mul: i32,
}

/// The corners of a record, row by row.
fn varblocks<'a>(
    sides: Sides,
    kinds: &'a [u8],
    hf_mul: &'a [i32],
) -> impl Iterator<Item = Varblock> + 'a {
    let blocks = kinds.iter().zip(hf_mul).enumerate();
    blocks.filter_map(move |(block, (&kind, &hf_mul))| {
        Some(Varblock {
            x: block.checked_rem(sides.bw)?,
            y: block / sides.bw,
            transform: u32::from(kind.checked_sub(2)?),
            hf_mul,
        })
    })
}

/// A lent layout, 0 to 256 blocks each way. One of width or height 0 is empty: it has no varblocks
/// and no pass groups.
#[derive(Debug, Copy, Clone)]
pub struct Layout<'a> {
    /// In blocks.
    pub sides: Sides,
    /// A place per block, row by row: 1 occupied, 2 + transform number at a corner.
    pub kinds: &'a [u8],
    /// A place per block, row by row; 0 off corners.
    pub hf_mul: &'a [i32],
}

impl<'a> Layout<'a> {
    /// Sides of a whole pass group, in blocks.
    pub const GROUP_SIDE: usize = 32;

    /// Its varblocks, corners row by row.
    pub fn varblocks(&self) -> impl Iterator<Item = Varblock> + 'a {
        varblocks(self.sides, self.kinds, self.hf_mul)
    }

    /// How many pass groups it has.
    pub fn groups(&self) -> usize {
        let count = |side: usize| side.div_ceil(Self::GROUP_SIDE);
        count(self.sides.bw).saturating_mul(count(self.sides.bh))
    }

    /// The corner (x, y in blocks) and the sides of the pass group with this index: 32 × 32 squares
    /// counted row by row, cut at the layout's edges. None for an index outside the layout.
    ///
    /// ```
    /// use netbuff::{Layout, Sides};
    ///
    /// let layout = Layout { sides: Sides { bw: 40, bh: 33 }, kinds: &[], hf_mul: &[] };
    /// assert_eq!(layout.groups(), 4);
    /// assert_eq!(layout.group_at(1), Some((32, 0, Sides { bw: 8, bh: 32 })));
    /// assert_eq!(layout.group_at(4), None);
    /// ```
    pub fn group_at(&self, index: usize) -> Option<(usize, usize, Sides)> {
        let across = self.sides.bw.div_ceil(Self::GROUP_SIDE);
        let (x, y) = (index.checked_rem(across)?, index / across);
        let (x, y) = (x * Self::GROUP_SIDE, y.checked_mul(Self::GROUP_SIDE)?);
        let bw = self.sides.bw.checked_sub(x)?.min(Self::GROUP_SIDE);
        let bh = self.sides.bh.checked_sub(y)?.min(Self::GROUP_SIDE);
        (bh > 0).then_some((x, y, Sides { bw, bh }))
    }

    /// The rows of blocks that the pass group with this index lies in, and the group's index among
    /// the groups of these rows. They are a layout by themselves, as no varblock crosses a 32-block
    /// border. A cut judges all that it is lent, so whoever cuts all groups lends each cut no more
    /// than these. None for an index outside the layout, or lists that do not fit.
    ///
    /// ```
    /// use netbuff::{Layout, Sides};
    ///
    /// let sides = Sides { bw: 40, bh: 33 };
    /// let layout = Layout { sides, kinds: &[2; 1320], hf_mul: &[1; 1320] };
    /// let (rows, index) = layout.rows_of(3).expect("it has four groups");
    /// assert_eq!((rows.sides, index), (Sides { bw: 40, bh: 1 }, 1));
    /// assert_eq!(rows.cut(index)?, layout.cut(3)?);
    /// # Ok::<(), netbuff::Refusal>(())
    /// ```
    pub fn rows_of(&self, index: usize) -> Option<(Self, usize)> {
        let (x, y, group) = self.group_at(index)?;
        let bw = self.sides.bw;
        let blocks = bw.checked_mul(y)?..bw.checked_mul(y + group.bh)?;
        let rows = Self {
            sides: Sides { bw, bh: group.bh },
            kinds: self.kinds.get(blocks.clone())?,
            hf_mul: self.hf_mul.get(blocks)?,
        };
        Some((rows, x / Self::GROUP_SIDE))
    }

    /// Cuts the pass group with this index into memory of its own.
    ///
    /// # Errors
    ///
    /// Those of [`cut`].
    ///
    /// ```
    /// use netbuff::{Layout, Sides};
    ///
    /// let sides = Sides { bw: 40, bh: 1 };
    /// let layout = Layout { sides, kinds: &[2; 40], hf_mul: &[1; 40] };
    /// assert_eq!(layout.cut(1)?.sides, Sides { bw: 8, bh: 1 });
    /// assert_eq!(layout.cut(2).unwrap_err().number(), 2);
    /// # Ok::<(), netbuff::Refusal>(())
    /// ```
    #[cfg(feature = "alloc")]
    pub fn cut(&self, index: usize) -> Result<GroupBuf> {
        let blocks = self.group_at(index).map_or(0, |(.., sides)| sides.blocks());
        let mut group = GroupBuf {
            sides: Sides::default(),
            kinds: vec![0; blocks],
            hf_mul: vec![0; blocks],
        };
        let output = GroupMut {
            kinds: &mut group.kinds,
            hf_mul: &mut group.hf_mul,
        };
        group.sides = cut(*self, index, output)?;
        Ok(group)
    }
}

/// A lent pass group, 0 to 32 blocks each way, as a cut leaves it, or empty: of width or height 0.
#[derive(Debug, Copy, Clone)]
pub struct Group<'a> {
    /// In blocks.
    pub sides: Sides,
    /// As those of a [`Layout`].
    pub kinds: &'a [u8],
    /// As those of a [`Layout`].
    pub hf_mul: &'a [i32],
}

impl<'a> Group<'a> {
    /// Its varblocks, corners row by row, counted from the group's own corner.
    pub fn varblocks(&self) -> impl Iterator<Item = Varblock> + 'a {
        varblocks(self.sides, self.kinds, self.hf_mul)
    }
}

/// What a cut fills: a place for each block of the group, row by row.
#[derive(Debug)]
pub struct GroupMut<'a> {
    /// As those of a [`Layout`].
    pub kinds: &'a mut [u8],
    /// As those of a [`Layout`].
    pub hf_mul: &'a mut [i32],
}

/// A pass group in memory of its own.
#[cfg(feature = "alloc")]
#[derive(Debug, Clone, PartialEq, Eq)]
pub struct GroupBuf {
    /// In blocks.
    pub sides: Sides,
    /// As those of a [`Layout`].
    pub kinds: Vec<u8>,
    /// As those of a [`Layout`].
    pub hf_mul: Vec<i32>,
}

#[cfg(feature = "alloc")]
impl GroupBuf {
    /// Lends the group.
    pub fn group(&self) -> Group<'_> {
        Group {
            sides: self.sides,
            kinds: &self.kinds,
            hf_mul: &self.hf_mul,
        }
    }
}

/// Cuts the pass group with this index, counted row by row from 0, out of a layout; the answer is
/// the group's sides. [`Layout::group_at`] tells them beforehand: the output has exactly as many
/// places as the group has blocks.
///
/// All that is lent is judged, so whoever cuts all groups lends just the rows of blocks that a
/// group lies in ([`Layout::rows_of`]).
///
/// # Errors
///
/// 2 (the layout's sides, or an index outside, thus every index of an empty layout), 1, 18; the
/// output stays as it was. A layout that the layout call accepted is never refused with 18.
///
/// ```
/// use netbuff::{cut, GroupMut, Layout, Sides};
///
/// let sides = Sides { bw: 33, bh: 1 };
/// let layout = Layout { sides, kinds: &[2; 33], hf_mul: &[7; 33] };
/// let (mut kinds, mut hf_mul) = ([0], [0]);
/// let output = GroupMut { kinds: &mut kinds, hf_mul: &mut hf_mul };
/// assert_eq!(cut(layout, 1, output)?, Sides { bw: 1, bh: 1 });
/// assert_eq!((kinds, hf_mul), ([2], [7]));
/// # Ok::<(), netbuff::Refusal>(())
/// ```
pub fn cut(layout: Layout, index: usize, output: GroupMut) -> Result<Sides> {
    let mut sides = Sides::default();
    let GroupMut { kinds, hf_mul } = output;
    // SAFETY: the lists and every reference are valid for the call, those lent for writing are
    // lent to nobody else, and nothing is kept.
    call(|x, y| unsafe {
        sys::netbuff_cut(
            layout.sides.bw,
            layout.sides.bh,
            layout.kinds.as_ptr(),
            layout.kinds.len(),
            layout.hf_mul.as_ptr(),
            layout.hf_mul.len(),
            index,
            kinds.as_mut_ptr(),
            kinds.len(),
            hf_mul.as_mut_ptr(),
            hf_mul.len(),
            &mut sides.bw,
            &mut sides.bh,
            x,
            y,
        )
    })?;
    Ok(sides)
}

/// A lent layout with its filter strengths, as [`LayoutBuf::filtered`](crate::LayoutBuf::filtered)
/// lends what the layout call filled.
#[derive(Debug, Copy, Clone)]
pub struct FilteredLayout<'a> {
    /// Its varblocks.
    pub layout: Layout<'a>,
    /// A place per block, row by row: any finite numbers.
    pub sigma: &'a [f32],
}

impl FilteredLayout<'_> {
    /// For messages where [`alike`] is refused with [`Length`](crate::Refusal::Length): the first
    /// list of this layout whose length does not fit, if there is one.
    ///
    /// ```
    /// use netbuff::{FilteredLayout, Layout, Sides};
    ///
    /// let layout = Layout { sides: Sides { bw: 2, bh: 1 }, kinds: &[2; 2], hf_mul: &[1; 2] };
    /// assert_eq!(FilteredLayout { layout, sigma: &[0.0] }.misfit(), Some("sigma"));
    /// ```
    pub fn misfit(&self) -> Option<&'static str> {
        let blocks = self.layout.sides.blocks();
        let lists = [
            ("kinds", self.layout.kinds.len()),
            ("hf_mul", self.layout.hf_mul.len()),
            ("sigma", self.sigma.len()),
        ];
        let unfit = lists.iter().find(|(_, length)| *length != blocks);
        unfit.map(|(name, _)| *name)
    }
}

/// Whether two layouts have the same varblocks (the same corners, and at each the same transform
/// number and hf_mul) and the same filter strengths to the bit. Layouts of different sides that have
/// a block are not alike, and +0.0 is not like −0.0; empty layouts are alike whatever their sides:
/// they have no varblocks. Two layouts that the layout call accepted are never refused, and each is
/// like itself.
///
/// # Errors
///
/// 2, 11 (a filter strength that is a NaN or an infinity; every one that is lent is looked at, those
/// beyond the layout's blocks too), 1, 18, each tried over both layouts before the next.
///
/// ```
/// use netbuff::{alike, FilteredLayout, Layout, Sides, TransformType};
///
/// let sides = Sides { bw: 1, bh: 1 };
/// let kind = |transform: TransformType| [2 + transform as u8];
/// let (dct8, hornuss) = (kind(TransformType::Dct8), kind(TransformType::Hornuss));
/// let layout = Layout { sides, kinds: &dct8, hf_mul: &[1] };
/// let one = FilteredLayout { layout, sigma: &[0.0] };
/// assert!(alike(one, one)?);
///
/// // Another transform of the same size, or another bit of a filter strength.
/// let other = FilteredLayout { layout: Layout { kinds: &hornuss, ..layout }, ..one };
/// assert!(!alike(one, other)?);
/// assert!(!alike(one, FilteredLayout { sigma: &[-0.0], ..one })?);
///
/// // A number that is not finite is refused with 11, before the length of its list with 1.
/// let refused = |sigma| alike(one, FilteredLayout { sigma, ..one }).unwrap_err().number();
/// assert_eq!(refused(&[f32::INFINITY]), 11);
/// assert_eq!(refused(&[0.0, f32::NAN]), 11);
/// assert_eq!(refused(&[0.0, 0.0]), 1);
/// # Ok::<(), netbuff::Refusal>(())
/// ```
pub fn alike(left: FilteredLayout, right: FilteredLayout) -> Result<bool> {
    let mut alike = false;
    // SAFETY: the lists and every reference are valid for the call, and nothing is kept.
    call(|x, y| unsafe {
        sys::netbuff_alike(
            left.layout.sides.bw,
            left.layout.sides.bh,
            left.layout.kinds.as_ptr(),
            left.layout.kinds.len(),
            left.layout.hf_mul.as_ptr(),
            left.layout.hf_mul.len(),
            left.sigma.as_ptr(),
            left.sigma.len(),
            right.layout.sides.bw,
            right.layout.sides.bh,
            right.layout.kinds.as_ptr(),
            right.layout.kinds.len(),
            right.layout.hf_mul.as_ptr(),
            right.layout.hf_mul.len(),
            right.sigma.as_ptr(),
            right.sigma.len(),
            &mut alike,
            x,
            y,
        )
    })?;
    Ok(alike)
}
