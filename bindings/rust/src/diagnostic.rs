//! What is said of nodes.

use crate::span::Span;
use std::ops::Range;

/// How grave a diagnostic is.
#[derive(Debug, Clone, Copy, PartialEq, Eq, Hash)]
pub enum Severity {
    /// The text is no syntax.
    Error,
    /// The text may not mean what was meant.
    Warning,
}

/// An error or a warning on a node.
///
/// ```
/// use typst_syntax::{Severity, parse};
///
/// let said = parse("*a").diagnostics_below();
/// assert_eq!(said[0].severity, Severity::Error);
/// assert_eq!((said[0].range.clone(), said[0].message.as_str()), (0..1, "unclosed delimiter"));
/// ```
#[derive(Debug, Clone, PartialEq, Eq, Hash)]
pub struct Diagnostic {
    /// How grave it is.
    pub severity: Severity,
    /// The node's span.
    pub span: Span,
    /// The bytes of the text that it is about.
    pub range: Range<usize>,
    /// What it says.
    pub message: String,
    /// What may help.
    pub hints: Vec<Hint>,
}

/// A hint on a diagnostic.
#[derive(Debug, Clone, PartialEq, Eq, Hash)]
pub struct Hint {
    /// The bytes of the text that it is about.
    pub range: Range<usize>,
    /// What it says.
    pub message: String,
}
