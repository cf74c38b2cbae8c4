//! Stand-in for `jxl_oxide_common`: the `Bundle` trait, and `define_bundle!` for structs that the
//! comparison never reads (document 01 leaves them behind), so that only their fields are declared.

use jxl_bitstream::Bitstream;

pub trait Bundle<Ctx = ()>: Sized {
    type Error;

    fn parse(bitstream: &mut Bitstream, ctx: Ctx) -> Result<Self, Self::Error>;
}

#[macro_export]
macro_rules! define_bundle {
    ($(
        $(#[$attribute:meta])*
        $visible:vis struct $name:ident error($error:ty) {
            $(
                $field_visible:vis $field:ident: ty($($kind:tt)*)
                $(cond($condition:expr))? $(default($default:expr))?
            ),* $(,)?
        }
    )*) => {
        $(
            $(#[$attribute])*
            #[allow(dead_code)]
            $visible struct $name {
                $($field_visible $field: $crate::field_type!($($kind)*),)*
            }
        )*
    };
}

#[doc(hidden)]
#[macro_export]
macro_rules! field_type {
    (Bool) => {
        bool
    };
    (F16) => {
        f32
    };
    ($($kind:tt)*) => {
        u32
    };
}
