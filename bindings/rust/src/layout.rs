use netbuff_sys as sys;

use crate::refusal::call;
use crate::{Result, Sides};

#[cfg(feature = "alloc")]
use crate::{FilteredLayout, Layout};
#[cfg(feature = "alloc")]
use alloc::{vec, vec::Vec};

/// The size of an LF group in pixels, 0 to 2,048 each way, and the upsampling modes of its three
/// channels, 0 to 3. One of width or height 0 is empty: it has no blocks.
#[derive(Debug, Copy, Clone, PartialEq, Eq)]
pub struct LfGroup {
    /// In pixels.
    pub width: u32,
    /// In pixels.
    pub height: u32,
    /// Of channels 0, 1, 2: 0 none, 1 both ways, 2 horizontal, 3 vertical.
    pub modes: [u32; 3],
}

impl LfGroup {
    /// The largest width and height.
    pub const MOST: u32 = 2048;

    /// An LF group with modes 0.
    pub const fn new(width: u32, height: u32) -> Self {
        Self {
            width,
            height,
            modes: [0; 3],
        }
    }

    /// The sides of its grid of blocks: the pixels divided by 8, rounded up; bw is made even if a
    /// mode is 1 or 2, bh if one is 1 or 3. No pixels are no blocks, whatever the modes. 0 and 0
    /// where width or height is above its limit, which every call refuses.
    ///
    /// ```
    /// use netbuff::{LfGroup, Sides};
    ///
    /// assert_eq!(LfGroup::new(17, 8).sides(), Sides { bw: 3, bh: 1 });
    /// let halved = LfGroup { modes: [0, 1, 0], ..LfGroup::new(17, 8) };
    /// assert_eq!(halved.sides(), Sides { bw: 4, bh: 2 });
    /// assert_eq!(LfGroup::new(0, 17).sides(), Sides { bw: 0, bh: 3 });
    /// ```
    pub fn sides(&self) -> Sides {
        if self.width > Self::MOST || self.height > Self::MOST {
            return Sides::default();
        }
        let side = |pixels: u32, halved: u32| {
            let blocks = pixels.div_ceil(8) as usize;
            let even = self.modes.iter().any(|&mode| mode == 1 || mode == halved);
            blocks + usize::from(even) * (blocks % 2)
        };
        Sides {
            bw: side(self.width, 2),
            bh: side(self.height, 3),
        }
    }
}

/// A column count and the bits read for it.
#[derive(Debug, Copy, Clone, Default, PartialEq, Eq)]
pub struct ColumnCount {
    /// How many columns an LF group has.
    pub count: u32,
    /// As many as the exponent of the least power of two not below the number of blocks.
    pub bits_read: usize,
}

/// The column count of an LF group, from the first bit on: 1 plus as many bits as the exponent of
/// the least power of two not below its number of blocks. That of an empty group is 1, and no bit is
/// read for it.
///
/// # Errors
///
/// 2 (width, height), 11 (modes), 3.
///
/// ```
/// use netbuff::{column_count, LfGroup};
///
/// let read = column_count(&[2], LfGroup::new(16, 16))?;
/// assert_eq!((read.count, read.bits_read), (3, 2));
/// let read = column_count(&[], LfGroup::new(0, 16))?;
/// assert_eq!((read.count, read.bits_read), (1, 0));
/// assert_eq!(column_count(&[2], LfGroup::new(2049, 16)).unwrap_err().number(), 2);
/// # Ok::<(), netbuff::Refusal>(())
/// ```
pub fn column_count(bytes: &[u8], group: LfGroup) -> Result<ColumnCount> {
    let mut read = ColumnCount::default();
    let ColumnCount { count, bits_read } = &mut read;
    let [mode0, mode1, mode2] = group.modes;
    // SAFETY: the bytes and every reference are valid for the call, and nothing is kept.
    call(|x, y| unsafe {
        sys::netbuff_column_count(
            bytes.as_ptr(),
            bytes.len(),
            group.width,
            group.height,
            mode0,
            mode1,
            mode2,
            count,
            bits_read,
            x,
            y,
        )
    })?;
    Ok(read)
}

/// Columns as an LF group sends them: two lists of one length.
#[derive(Debug, Copy, Clone)]
pub struct Columns<'a> {
    /// Each column's transform number, as `TransformType::Dct16 as i32` is one. All 32 bits count:
    /// in a column that is used any number but 0 to 26 is refused with 5, so 256 too.
    pub types: &'a [i32],
    /// Each column's mul. Its hf_mul is mul + 1 and must be positive; the largest mul wraps, and is
    /// refused with 6.
    pub muls: &'a [i32],
}

/// What the layout call reads.
#[derive(Debug, Copy, Clone)]
pub struct LayoutInput<'a> {
    /// The LF group that is laid out.
    pub group: LfGroup,
    /// Surplus ones are accepted.
    pub columns: Columns<'a>,
    /// A number for each block, row by row; their contents are looked at with the filter on, and
    /// must be 0 to 7 then.
    pub sharpness: &'a [i32],
    /// Off, or on with its multiplier.
    pub filter: Filter,
    /// By sharpness (the filter's sharp_lut), −65,504 to 65,504 each; looked at even when the filter
    /// is off.
    pub lookup: &'a [f32; 8],
    /// The quantizer's global_scale, 1 to 73,728; looked at even when the filter is off.
    pub scale: u32,
}

impl<'a> LayoutInput<'a> {
    /// With the filter off.
    pub fn unfiltered(group: LfGroup, columns: Columns<'a>, sharpness: &'a [i32]) -> Self {
        Self {
            group,
            columns,
            sharpness,
            filter: Filter::Off,
            lookup: &[0.0; 8],
            scale: 1,
        }
    }

    /// For messages where [`layout`] is refused with [`Length`](crate::Refusal::Length): the first
    /// list whose length does not fit, if there is one.
    ///
    /// ```
    /// use netbuff::{Columns, LayoutInput, LayoutMut, LfGroup};
    ///
    /// let columns = Columns { types: &[0], muls: &[0] };
    /// let input = LayoutInput::unfiltered(LfGroup::new(16, 8), columns, &[0; 2]);
    /// let (mut kinds, mut hf_mul, mut sigma) = ([0; 2], [0; 1], [0.0; 2]);
    /// let output = LayoutMut { kinds: &mut kinds, hf_mul: &mut hf_mul, sigma: &mut sigma };
    /// assert_eq!(input.misfit(&output), Some("hf_mul"));
    /// ```
    pub fn misfit(&self, output: &LayoutMut) -> Option<&'static str> {
        let blocks = self.group.sides().blocks();
        let lists = [
            ("muls", self.columns.muls.len(), self.columns.types.len()),
            ("sharpness", self.sharpness.len(), blocks),
            ("kinds", output.kinds.len(), blocks),
            ("hf_mul", output.hf_mul.len(), blocks),
            ("sigma", output.sigma.len(), blocks),
        ];
        let unfit = lists.iter().find(|(_, length, due)| length != due);
        unfit.map(|(name, ..)| *name)
    }
}

/// The edge-preserving filter.
#[derive(Debug, Copy, Clone, PartialEq)]
pub enum Filter {
    /// Every strength is +0.0.
    Off,
    /// With its multiplier (quant_mul), −65,504 to 65,504.
    On(f32),
}

/// What the layout call fills: a place per block, row by row.
#[derive(Debug)]
pub struct LayoutMut<'a> {
    /// 1 occupied, 2 + transform number at a varblock's corner.
    pub kinds: &'a mut [u8],
    /// 0 off corners.
    pub hf_mul: &'a mut [i32],
    /// Filter strengths: multiplier × 65536 / scale / hf_mul × lookup\[sharpness\], each step
    /// rounded once.
    pub sigma: &'a mut [f32],
}

/// Reads a layout; the answer is the number of columns used.
///
/// Blocks are visited row by row, and a free block takes the next column. `sharpness`, `kinds`,
/// `hf_mul` and `sigma` have as many places as the group has blocks ([`LfGroup::sides`]), and both
/// lists of columns are equally long. [`LayoutBuf::read`] brings the memory along.
///
/// An empty group is accepted with 0 columns used: all of them are surplus. Modes, scale, floats and
/// lengths, which are 0, are judged as for any other.
///
/// # Errors
///
/// 2, 11, 1: the output stays as it was. Then 4 to 10: the output is all zero.
///
/// ```
/// use netbuff::{layout, Columns, LayoutInput, LayoutMut, LfGroup};
///
/// let columns = Columns { types: &[6, 0, 0], muls: &[4, 0, 2] };
/// let input = LayoutInput::unfiltered(LfGroup::new(16, 16), columns, &[0; 4]);
/// let (mut kinds, mut hf_mul, mut sigma) = ([0; 4], [0; 4], [0.0; 4]);
/// let output = LayoutMut { kinds: &mut kinds, hf_mul: &mut hf_mul, sigma: &mut sigma };
/// assert_eq!(layout(&input, output)?, 3);
/// assert_eq!(kinds, [2 + 6, 2, 1, 2]);
/// assert_eq!(hf_mul, [5, 1, 0, 3]);
/// # Ok::<(), netbuff::Refusal>(())
/// ```
pub fn layout(input: &LayoutInput, output: LayoutMut) -> Result<usize> {
    let LayoutInput {
        group,
        columns: Columns { types, muls },
        sharpness,
        filter,
        lookup,
        scale,
    } = *input;
    let LayoutMut {
        kinds,
        hf_mul,
        sigma,
    } = output;
    let (filter_on, multiplier) = match filter {
        Filter::Off => (false, 0.0),
        Filter::On(multiplier) => (true, multiplier),
    };
    let [mode0, mode1, mode2] = group.modes;
    let mut used = 0;
    // SAFETY: the lists and every reference are valid for the call, those lent for writing are
    // lent to nobody else, and nothing is kept.
    call(|x, y| unsafe {
        sys::netbuff_layout(
            group.width,
            group.height,
            mode0,
            mode1,
            mode2,
            types.as_ptr(),
            types.len(),
            muls.as_ptr(),
            muls.len(),
            sharpness.as_ptr(),
            sharpness.len(),
            filter_on,
            multiplier,
            lookup,
            scale,
            kinds.as_mut_ptr(),
            kinds.len(),
            hf_mul.as_mut_ptr(),
            hf_mul.len(),
            sigma.as_mut_ptr(),
            sigma.len(),
            &mut used,
            x,
            y,
        )
    })?;
    Ok(used)
}

/// A layout with its filter strengths, in memory of its own.
#[cfg(feature = "alloc")]
#[derive(Debug, Clone, PartialEq)]
pub struct LayoutBuf {
    /// In blocks.
    pub sides: Sides,
    /// As [`LayoutMut::kinds`].
    pub kinds: Vec<u8>,
    /// As [`LayoutMut::hf_mul`].
    pub hf_mul: Vec<i32>,
    /// As [`LayoutMut::sigma`].
    pub sigma: Vec<f32>,
    /// How many of the columns it took.
    pub columns_used: usize,
}

#[cfg(feature = "alloc")]
impl LayoutBuf {
    /// Reads a layout into memory of its own.
    ///
    /// # Errors
    ///
    /// Those of [`layout`].
    ///
    /// ```
    /// use netbuff::{Columns, LayoutBuf, LayoutInput, LfGroup, Refusal};
    ///
    /// let group = LfGroup::new(16, 16);
    /// let read = |types: &[i32], muls: &[i32]| {
    ///     let columns = Columns { types, muls };
    ///     LayoutBuf::read(&LayoutInput::unfiltered(group, columns, &[0; 4]))
    /// };
    /// let layout = read(&[6, 0, 0], &[4, 0, 2])?;
    /// let corners: Vec<_> = layout.layout().varblocks().map(|v| (v.x, v.y)).collect();
    /// assert_eq!(corners, [(0, 0), (1, 0), (1, 1)]);
    ///
    /// let refused = read(&[0, 6, 7], &[0; 3]).unwrap_err();
    /// assert_eq!(refused, Refusal::Overlap { x: 0, y: 1 });
    /// # Ok::<(), Refusal>(())
    /// ```
    pub fn read(input: &LayoutInput) -> Result<Self> {
        let sides = input.group.sides();
        let mut read = Self {
            sides,
            kinds: vec![0; sides.blocks()],
            hf_mul: vec![0; sides.blocks()],
            sigma: vec![0.0; sides.blocks()],
            columns_used: 0,
        };
        let output = LayoutMut {
            kinds: &mut read.kinds,
            hf_mul: &mut read.hf_mul,
            sigma: &mut read.sigma,
        };
        read.columns_used = layout(input, output)?;
        Ok(read)
    }

    /// Lends the layout.
    pub fn layout(&self) -> Layout<'_> {
        Layout {
            sides: self.sides,
            kinds: &self.kinds,
            hf_mul: &self.hf_mul,
        }
    }

    /// Lends the layout with its filter strengths, to be compared with another.
    ///
    /// ```
    /// use netbuff::{alike, Columns, LayoutBuf, LayoutInput, LfGroup};
    ///
    /// let read = |muls: &[i32]| {
    ///     let columns = Columns { types: &[0], muls };
    ///     LayoutBuf::read(&LayoutInput::unfiltered(LfGroup::new(8, 8), columns, &[0]))
    /// };
    /// let (one, two) = (read(&[4])?, read(&[5])?);
    /// assert!(alike(one.filtered(), one.filtered())?);
    /// assert!(!alike(one.filtered(), two.filtered())?);
    /// # Ok::<(), netbuff::Refusal>(())
    /// ```
    pub fn filtered(&self) -> FilteredLayout<'_> {
        FilteredLayout {
            layout: self.layout(),
            sigma: &self.sigma,
        }
    }
}
