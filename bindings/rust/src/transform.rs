use core::fmt;

use netbuff_sys as sys;

use crate::refusal::call;
use crate::Result;

/// What a transform's number carries.
#[derive(Debug, Copy, Clone, Default, PartialEq, Eq)]
pub struct Transform {
    /// Width of its varblocks, in blocks.
    pub wide: usize,
    /// Height of its varblocks, in blocks.
    pub high: usize,
    /// The order of its coefficients, 0 to 12.
    pub order: usize,
    /// Whether x and y of a place are swapped.
    pub turns: bool,
}

/// The transform of a number, 0 to 26 ([`TransformType`] has their names).
///
/// # Errors
///
/// 5 at 0, 0 for any larger number.
///
/// ```
/// let dct16x8 = netbuff::transform(6)?;
/// assert_eq!((dct16x8.wide, dct16x8.high), (1, 2));
/// assert_eq!((dct16x8.order, dct16x8.turns), (4, true));
/// assert_eq!(netbuff::transform(27).unwrap_err().number(), 5);
/// # Ok::<(), netbuff::Refusal>(())
/// ```
pub fn transform(number: u32) -> Result<Transform> {
    let mut read = Transform::default();
    let Transform {
        wide,
        high,
        order,
        turns,
    } = &mut read;
    // SAFETY: every reference is valid for the call, and nothing is kept.
    call(|x, y| unsafe { sys::netbuff_transform(number, wide, high, order, turns, x, y) })?;
    Ok(read)
}

macro_rules! types {
    ($($name:ident $size:literal,)*) => {
        /// The names of the transform numbers.
        ///
        /// A name tells the height first where the two differ, as in jxl-vardct: `Dct16x8` is 16
        /// pixels high and 8 wide.
        ///
        /// ```
        /// use netbuff::TransformType;
        ///
        /// assert_eq!(TransformType::Dct16x8.number(), 6);
        /// assert_eq!(TransformType::of(26), Some(TransformType::Dct128x256));
        /// assert_eq!(TransformType::of(27), None);
        /// ```
        #[derive(Debug, Copy, Clone, PartialEq, Eq, PartialOrd, Ord, Hash)]
        #[repr(u8)]
        pub enum TransformType {
            $(#[doc = $size] $name,)*
        }

        impl TransformType {
            /// All of them, by number.
            pub const ALL: [Self; 27] = [$(Self::$name,)*];

            /// The name as it is written here.
            pub fn name(self) -> &'static str {
                match self {
                    $(Self::$name => stringify!($name),)*
                }
            }
        }
    };
}

types! {
    Dct8 "0: one block.",
    Hornuss "1: one block.",
    Dct2 "2: one block.",
    Dct4 "3: one block.",
    Dct16 "4: 2 × 2 blocks.",
    Dct32 "5: 4 × 4 blocks.",
    Dct16x8 "6: one block wide, two high.",
    Dct8x16 "7: two blocks wide, one high.",
    Dct32x8 "8: one block wide, four high.",
    Dct8x32 "9: four blocks wide, one high.",
    Dct32x16 "10: two blocks wide, four high.",
    Dct16x32 "11: four blocks wide, two high.",
    Dct4x8 "12: one block.",
    Dct8x4 "13: one block.",
    Afv0 "14: one block.",
    Afv1 "15: one block.",
    Afv2 "16: one block.",
    Afv3 "17: one block.",
    Dct64 "18: 8 × 8 blocks.",
    Dct64x32 "19: four blocks wide, eight high.",
    Dct32x64 "20: eight blocks wide, four high.",
    Dct128 "21: 16 × 16 blocks.",
    Dct128x64 "22: eight blocks wide, 16 high.",
    Dct64x128 "23: 16 blocks wide, eight high.",
    Dct256 "24: 32 × 32 blocks.",
    Dct256x128 "25: 16 blocks wide, 32 high.",
    Dct128x256 "26: 32 blocks wide, 16 high.",
}

impl TransformType {
    /// The type with a number, 0 to 26.
    pub fn of(number: u32) -> Option<Self> {
        Self::ALL.get(usize::try_from(number).ok()?).copied()
    }

    /// Its number, as a column's type and [`transform`] have it.
    pub fn number(self) -> u32 {
        self as u32
    }
}

impl fmt::Display for TransformType {
    fn fmt(&self, f: &mut fmt::Formatter<'_>) -> fmt::Result {
        f.pad(self.name())
    }
}
