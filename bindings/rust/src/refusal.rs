//! Why a call is refused.

use crate::ffi;
use std::error::Error;
use std::fmt::{self, Display, Formatter};

/// Why a call is refused. Nothing has changed then.
///
/// ```
/// use typst_syntax::{Refusal, Source};
///
/// let mut source = Source::detached("é");
/// assert_eq!(source.try_edit(1..2, ""), Err(Refusal::BadRange));
/// ```
#[derive(Debug, Clone, Copy, PartialEq, Eq, Hash)]
#[non_exhaustive]
pub enum Refusal {
    /// A request for memory was refused.
    NoMemory,
    /// A range isn't one of the text, or an end of it lies within a character.
    BadRange,
    /// There are fewer span numbers than nodes.
    SpanNumbers,
    /// The text, or the tree, is too large for records.
    TooLarge,
    /// The library answered a code that it shouldn't have.
    Other(u32),
}

impl Refusal {
    /// What a code says.
    pub(crate) fn check(code: u32) -> Result<(), Refusal> {
        match code {
            ffi::OK => Ok(()),
            ffi::NO_MEMORY => Err(Refusal::NoMemory),
            ffi::BAD_RANGE => Err(Refusal::BadRange),
            ffi::SPAN_NUMBERS => Err(Refusal::SpanNumbers),
            ffi::TOO_LARGE => Err(Refusal::TooLarge),
            other => Err(Refusal::Other(other)),
        }
    }
}

impl Display for Refusal {
    fn fmt(&self, f: &mut Formatter) -> fmt::Result {
        match self {
            Refusal::NoMemory => f.write_str("out of memory"),
            Refusal::BadRange => f.write_str("the range isn't one of the text"),
            Refusal::SpanNumbers => f.write_str("there are fewer span numbers than nodes"),
            Refusal::TooLarge => f.write_str("the text is too large"),
            Refusal::Other(code) => write!(f, "the library answered {code}"),
        }
    }
}

impl Error for Refusal {}
