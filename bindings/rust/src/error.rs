//! The words of errors.
use crate::{call, Error};
use core::fmt;

impl fmt::Display for Error {
    fn fmt(&self, f: &mut fmt::Formatter<'_>) -> fmt::Result {
        f.write_str(call::words_of_error(*self, &mut [0; 200]))
    }
}

#[cfg(feature = "std")]
impl std::error::Error for Error {}
