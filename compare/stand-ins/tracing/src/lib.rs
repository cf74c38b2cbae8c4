//! Stand-in for `tracing`: the fields of the last error stay readable, since some of the Rust's
//! refusals tell their position nowhere else.

use std::cell::RefCell;

pub type Field = (&'static str, i64);

thread_local! {
    static LAST_ERROR: RefCell<Vec<Field>> = const { RefCell::new(Vec::new()) };
}

pub fn record_error(fields: Vec<Field>) {
    LAST_ERROR.set(fields);
}

/// Takes the fields of the last error; empty if there was none since.
pub fn take_last_error() -> Vec<Field> {
    LAST_ERROR.take()
}

#[macro_export]
macro_rules! error {
    ($($event:tt)*) => {
        $crate::record_error($crate::fields!([] $($event)*))
    };
}

#[macro_export]
macro_rules! warn {
    ($($event:tt)*) => {
        let _ = || $crate::fields!([] $($event)*);
    };
}

/// The fields of an event as a list; those shown by `?` are left out.
#[doc(hidden)]
#[macro_export]
macro_rules! fields {
    ([$($done:expr,)*] $text:literal $(,)?) => {
        Vec::<$crate::Field>::from([$($done,)*])
    };
    ([$($done:expr,)*] ?$name:ident, $($rest:tt)*) => {
        $crate::fields!([$($done,)*] $($rest)*)
    };
    ([$($done:expr,)*] $name:ident = $value:expr, $($rest:tt)*) => {
        $crate::fields!([$($done,)* (stringify!($name), $value as i64),] $($rest)*)
    };
    ([$($done:expr,)*] $name:ident, $($rest:tt)*) => {
        $crate::fields!([$($done,)* (stringify!($name), $name as i64),] $($rest)*)
    };
}
