use core::fmt;

use netbuff_sys as sys;

/// A version of the library.
#[derive(Debug, Copy, Clone, PartialEq, Eq, PartialOrd, Ord, Hash)]
pub struct Version {
    /// From 1 on, another number is another interface.
    pub major: u32,
    /// As long as major is 0, another number is another interface.
    pub minor: u32,
    /// The same interface.
    pub patch: u32,
}

/// The version that this crate is written for, which is its own.
///
/// ```
/// assert_eq!(netbuff::VERSION.to_string(), env!("CARGO_PKG_VERSION"));
/// ```
pub const VERSION: Version = Version {
    major: digits(env!("CARGO_PKG_VERSION_MAJOR")),
    minor: digits(env!("CARGO_PKG_VERSION_MINOR")),
    patch: digits(env!("CARGO_PKG_VERSION_PATCH")),
};

/// The number that so many digits are.
const fn digits(text: &str) -> u32 {
    let (mut number, mut k) = (0, 0);
    while k < text.len() {
        number = 10 * number + (text.as_bytes()[k] - b'0') as u32;
        k += 1;
    }
    number
}

/// The version of the library that is linked, to be held against [`VERSION`]: where
/// `NETBUFF_LIB_DIR` names a folder, it may be another one.
///
/// ```
/// assert!(netbuff::version().fits(netbuff::VERSION));
/// ```
pub fn version() -> Version {
    // SAFETY: nothing is lent.
    let number = unsafe { sys::netbuff_version() };
    Version {
        major: number / 1_000_000,
        minor: number / 1000 % 1000,
        patch: number % 1000,
    }
}

impl Version {
    /// Whether a program for the other version may use this one: major is the same and, as long as
    /// it is 0, minor too.
    ///
    /// ```
    /// use netbuff::Version;
    ///
    /// let of = |major, minor, patch| Version { major, minor, patch };
    /// assert!(of(0, 1, 3).fits(of(0, 1, 0)) && !of(0, 2, 0).fits(of(0, 1, 0)));
    /// assert!(of(1, 2, 0).fits(of(1, 1, 0)) && !of(1, 1, 0).fits(of(1, 2, 0)));
    /// ```
    pub const fn fits(self, other: Self) -> bool {
        self.major == other.major
            && (self.minor == other.minor || (self.major > 0 && self.minor > other.minor))
    }
}

impl fmt::Display for Version {
    fn fmt(&self, f: &mut fmt::Formatter<'_>) -> fmt::Result {
        write!(f, "{}.{}.{}", self.major, self.minor, self.patch)
    }
}
