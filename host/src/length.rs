//! Bytes of the wrong length.

use core::fmt;

/// Bytes that are too few, or for a [`Record`](crate::Record) too many.
#[derive(Clone, Copy, Debug, PartialEq, Eq, Hash)]
pub struct WrongLength {
    /// How many are wanted.
    pub wanted: usize,
    /// How many there were.
    pub found: usize,
}

impl fmt::Display for WrongLength {
    fn fmt(&self, f: &mut fmt::Formatter) -> fmt::Result {
        write!(
            f,
            "{} bytes are wanted, and there are {}",
            self.wanted, self.found
        )
    }
}

impl core::error::Error for WrongLength {}
