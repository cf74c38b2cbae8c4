use core::fmt;

/// A call's answer: a result, or one refusal. With a second type it is the usual `Result`, so that
/// `use netbuff::*` takes nothing away.
pub type Result<T, E = Refusal> = core::result::Result<T, E>;

/// Why a call was refused, with the position that goes with it.
///
/// A refusal hands back nothing else: results keep what they held, and so does all lent memory,
/// unless the call says otherwise. [`number`](Self::number) and [`position`](Self::position) are
/// those of the C interface; later calls add numbers.
///
/// ```
/// use netbuff::{transform, Refusal};
///
/// let refused = transform(27).unwrap_err();
/// assert_eq!(refused, Refusal::Transform { x: 0, y: 0 });
/// assert_eq!((refused.number(), refused.position()), (5, (0, 0)));
/// assert_eq!(refused.to_string(), "transform unknown at 0, 0 (refusal 5)");
/// ```
#[derive(Debug, Copy, Clone, PartialEq, Eq, Hash)]
#[non_exhaustive]
pub enum Refusal {
    /// 1: a lent length does not fit. [`LayoutInput::misfit`](crate::LayoutInput::misfit),
    /// [`FilteredLayout::misfit`](crate::FilteredLayout::misfit) and
    /// [`CoefficientInput::misfit`](crate::CoefficientInput::misfit) tell which.
    Length,
    /// 2: a size is outside its limits, or a group's index outside its layout.
    Size,
    /// 3: the bits end.
    BitsEnd {
        /// Bits that the call read before.
        bits_read: usize,
    },
    /// 4: the columns end before every block has its varblock.
    ColumnsEnd {
        /// Of the free block.
        x: usize,
        /// Of the free block.
        y: usize,
    },
    /// 5: there is no such transform.
    Transform {
        /// Of the free block; 0 where a number is looked up by itself.
        x: usize,
        /// Of the free block; 0 where a number is looked up by itself.
        y: usize,
    },
    /// 6: hf_mul is not positive.
    HfMul {
        /// Of the free block.
        x: usize,
        /// Of the free block.
        y: usize,
    },
    /// 7: a varblock crosses a 32-block border.
    Border {
        /// Of the free block.
        x: usize,
        /// Of the free block.
        y: usize,
    },
    /// 8: varblocks overlap.
    Overlap {
        /// Of the free block.
        x: usize,
        /// Of the free block.
        y: usize,
    },
    /// 9: a varblock leaves the LF group.
    Outside {
        /// Of the free block.
        x: usize,
        /// Of the free block.
        y: usize,
    },
    /// 10: the filter is on, and a sharpness number is not 0 to 7.
    Sharpness {
        /// Of the free block whose varblock was being placed.
        x: usize,
        /// Of the free block whose varblock was being placed.
        y: usize,
    },
    /// 11: scale, mode, float, shift, presets or situation are outside their limits.
    Parameter,
    /// 12: a context record is unfit.
    Context,
    /// 13: an order's length or digit is too large.
    Order {
        /// Symbols read, the refused one included.
        symbols_read: usize,
    },
    /// 13 at 0, 0: a stored place is outside its order's size.
    StoredPlace,
    /// 14: the preset number is not below presets.
    Preset {
        /// Bits read.
        bits_read: usize,
    },
    /// 15: the symbols end.
    SymbolsEnd {
        /// Symbols read.
        symbols_read: usize,
    },
    /// 16: a count is above 63 × blocks.
    Count {
        /// Symbols read, the count included.
        symbols_read: usize,
    },
    /// 17: a coefficient's context is 458 or more; met only where more coefficients of a channel are
    /// due than places remain.
    CoefficientContext {
        /// Symbols read.
        symbols_read: usize,
    },
    /// 18: a lent layout or group is none.
    Layout,
    /// 24: the places of a varblock's channel end with count remaining.
    CountRemaining {
        /// Symbols read, that of the last place included.
        symbols_read: usize,
    },
    /// What this version of the crate has no name for.
    Other {
        /// The refusal's number.
        number: u32,
        /// The first number of its position.
        x: usize,
        /// The second number of its position.
        y: usize,
    },
}

impl Refusal {
    /// The refusal that an exported call answered with; nothing of the three numbers is lost.
    pub(crate) fn of(number: u32, x: usize, y: usize) -> Self {
        let (bits_read, symbols_read) = (x, x);
        match (number, x, y) {
            (1, 0, 0) => Self::Length,
            (2, 0, 0) => Self::Size,
            (3, _, 0) => Self::BitsEnd { bits_read },
            (4, ..) => Self::ColumnsEnd { x, y },
            (5, ..) => Self::Transform { x, y },
            (6, ..) => Self::HfMul { x, y },
            (7, ..) => Self::Border { x, y },
            (8, ..) => Self::Overlap { x, y },
            (9, ..) => Self::Outside { x, y },
            (10, ..) => Self::Sharpness { x, y },
            (11, 0, 0) => Self::Parameter,
            (12, 0, 0) => Self::Context,
            (13, 0, 0) => Self::StoredPlace,
            (13, _, 0) => Self::Order { symbols_read },
            (14, _, 0) => Self::Preset { bits_read },
            (15, _, 0) => Self::SymbolsEnd { symbols_read },
            (16, _, 0) => Self::Count { symbols_read },
            (17, _, 0) => Self::CoefficientContext { symbols_read },
            (18, 0, 0) => Self::Layout,
            (24, _, 0) => Self::CountRemaining { symbols_read },
            _ => Self::Other { number, x, y },
        }
    }

    /// The refusal's number: 1 to 18, or 24.
    pub fn number(self) -> u32 {
        match self {
            Self::Length => 1,
            Self::Size => 2,
            Self::BitsEnd { .. } => 3,
            Self::ColumnsEnd { .. } => 4,
            Self::Transform { .. } => 5,
            Self::HfMul { .. } => 6,
            Self::Border { .. } => 7,
            Self::Overlap { .. } => 8,
            Self::Outside { .. } => 9,
            Self::Sharpness { .. } => 10,
            Self::Parameter => 11,
            Self::Context => 12,
            Self::Order { .. } | Self::StoredPlace => 13,
            Self::Preset { .. } => 14,
            Self::SymbolsEnd { .. } => 15,
            Self::Count { .. } => 16,
            Self::CoefficientContext { .. } => 17,
            Self::Layout => 18,
            Self::CountRemaining { .. } => 24,
            Self::Other { number, .. } => number,
        }
    }

    /// The two numbers of its position: x and y of a block for 4 to 10, bits or symbols read and 0
    /// for 3, 13 to 17 and 24, 0 and 0 for all others.
    pub fn position(self) -> (usize, usize) {
        match self {
            Self::ColumnsEnd { x, y }
            | Self::Transform { x, y }
            | Self::HfMul { x, y }
            | Self::Border { x, y }
            | Self::Overlap { x, y }
            | Self::Outside { x, y }
            | Self::Sharpness { x, y }
            | Self::Other { x, y, .. } => (x, y),
            Self::BitsEnd { bits_read } | Self::Preset { bits_read } => (bits_read, 0),
            Self::Order { symbols_read }
            | Self::SymbolsEnd { symbols_read }
            | Self::Count { symbols_read }
            | Self::CoefficientContext { symbols_read }
            | Self::CountRemaining { symbols_read } => (symbols_read, 0),
            Self::Length
            | Self::Size
            | Self::Parameter
            | Self::Context
            | Self::StoredPlace
            | Self::Layout => (0, 0),
        }
    }

    /// What is wrong, without number and position.
    pub fn text(self) -> &'static str {
        match self {
            Self::Length => "a lent length does not fit",
            Self::Size => "a size is outside its limits",
            Self::BitsEnd { .. } => "bits end",
            Self::ColumnsEnd { .. } => "columns end",
            Self::Transform { .. } => "transform unknown",
            Self::HfMul { .. } => "hf_mul not positive",
            Self::Border { .. } => "varblock crosses a 32-block border",
            Self::Overlap { .. } => "varblocks overlap",
            Self::Outside { .. } => "varblock leaves the LF group",
            Self::Sharpness { .. } => "sharpness not 0 to 7",
            Self::Parameter => "scale, mode, float, shift, presets or situation outside limits",
            Self::Context => "context record unfit",
            Self::Order { .. } => "order length or digit too large",
            Self::StoredPlace => "stored place outside its order's size",
            Self::Preset { .. } => "preset number not below presets",
            Self::SymbolsEnd { .. } => "symbols end",
            Self::Count { .. } => "count above 63 x blocks",
            Self::CoefficientContext { .. } => "coefficient context 458 or more",
            Self::Layout => "lent layout or group is none",
            Self::CountRemaining { .. } => "places end with count remaining",
            Self::Other { .. } => "refused",
        }
    }
}

impl fmt::Display for Refusal {
    fn fmt(&self, f: &mut fmt::Formatter<'_>) -> fmt::Result {
        let (text, number, (x, y)) = (self.text(), self.number(), self.position());
        match number {
            1 | 2 | 11 | 12 | 18 => write!(f, "{text} (refusal {number})"),
            13 if x == 0 => write!(f, "{text} (refusal {number})"),
            3 | 14 => write!(f, "{text} after {x} bits (refusal {number})"),
            13 | 15..=17 | 24 => write!(f, "{text} after {x} symbols (refusal {number})"),
            _ => write!(f, "{text} at {x}, {y} (refusal {number})"),
        }
    }
}

impl core::error::Error for Refusal {}

/// As invalid data, with the refusal inside.
#[cfg(feature = "std")]
impl From<Refusal> for std::io::Error {
    fn from(refusal: Refusal) -> Self {
        Self::new(std::io::ErrorKind::InvalidData, refusal)
    }
}

/// Makes a call that answers by a number and a position.
pub(crate) fn call(answer: impl FnOnce(&mut usize, &mut usize) -> u32) -> Result<()> {
    let (mut x, mut y) = (0, 0);
    match answer(&mut x, &mut y) {
        0 => Ok(()),
        number => Err(Refusal::of(number, x, y)),
    }
}

#[cfg(test)]
mod tests {
    use super::Refusal;

    #[test]
    fn nothing_of_an_answer_is_lost() {
        for number in 1..30 {
            for (x, y) in [(0, 0), (7, 0), (0, 9), (7, 9)] {
                let refused = Refusal::of(number, x, y);
                assert_eq!((refused.number(), refused.position()), (number, (x, y)));
            }
        }
    }

    #[test]
    fn all_nineteen_have_names() {
        let named = |number: &u32| !matches!(Refusal::of(*number, 0, 0), Refusal::Other { .. });
        assert!((0..100).filter(named).eq((1..=18).chain([24])));
    }

    /// Its rows are refusal(NAME, number, "text", "position"); 13 has two texts here.
    #[test]
    #[cfg(feature = "std")]
    fn names_and_texts_are_the_headers() {
        let header = include_str!("../../../include/netbuff.h");
        let rows = header.lines().filter_map(|line| {
            let mut fields = line.trim().strip_prefix("refusal(")?.splitn(3, ", ");
            let name = fields.next()?.replace('_', "").to_lowercase();
            Some((name, fields.next()?.parse().ok()?, fields.next()?))
        });
        let rows: Vec<(_, u32, _)> = rows.collect();
        assert_eq!(rows.len(), 19);
        for (name, number, rest) in rows {
            let refused = Refusal::of(number, usize::from(number == 13), 0);
            let named = format!("{refused:?} ").to_lowercase();
            assert_eq!(named.split(' ').next(), Some(&name[..]), "{number}");
            assert!(number == 13 || rest.contains(refused.text()), "{number}");
        }
    }

    #[test]
    #[cfg(feature = "std")]
    fn words_tell_what_and_where() {
        let said = |number, x, y| Refusal::of(number, x, y).to_string();
        assert_eq!(said(1, 0, 0), "a lent length does not fit (refusal 1)");
        assert_eq!(said(3, 5, 0), "bits end after 5 bits (refusal 3)");
        assert_eq!(said(8, 0, 1), "varblocks overlap at 0, 1 (refusal 8)");
        assert_eq!(said(15, 4, 0), "symbols end after 4 symbols (refusal 15)");
        let remaining = "places end with count remaining after 64 symbols (refusal 24)";
        assert_eq!(said(24, 64, 0), remaining);
        assert!(said(13, 0, 0).starts_with("stored place"));
        assert_eq!(said(99, 1, 2), "refused at 1, 2 (refusal 99)");
    }

    #[test]
    #[cfg(feature = "std")]
    fn a_refusal_is_an_error() {
        let error = std::io::Error::from(Refusal::Length);
        assert_eq!(error.kind(), std::io::ErrorKind::InvalidData);
        let inner = error.get_ref().and_then(|e| e.downcast_ref::<Refusal>());
        assert_eq!(inner, Some(&Refusal::Length));
    }
}
