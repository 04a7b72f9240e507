//! The error of a call with two paths.

use crate::Error;
use std::fmt;
use std::io;

/// Why [`link`](crate::Store::link) or [`rename`](crate::Store::rename) was refused, and which of the two paths it is about.
///
/// It converts into an [`Error`], so `?` takes it too.
#[derive(Clone, Debug, PartialEq, Eq, Hash)]
#[non_exhaustive]
pub struct PathError {
    /// Why.
    pub error: Error,
    /// The path. None if the refusal is about neither of the two, as [`Error::Full`].
    pub path: Option<String>,
}

impl fmt::Display for PathError {
    fn fmt(&self, f: &mut fmt::Formatter<'_>) -> fmt::Result {
        match &self.path {
            Some(path) => write!(f, "{path}: {}", self.error),
            None => self.error.fmt(f),
        }
    }
}

impl std::error::Error for PathError {
    fn source(&self) -> Option<&(dyn std::error::Error + 'static)> {
        Some(&self.error)
    }
}

impl From<PathError> for Error {
    fn from(error: PathError) -> Error {
        error.error
    }
}

impl From<PathError> for io::Error {
    /// The kind is that of the [`Error`].
    fn from(error: PathError) -> io::Error {
        io::Error::new(io::Error::from(error.error).kind(), error)
    }
}
