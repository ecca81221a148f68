//! The parser layer of Typst by a proved library, with the names of `typst-syntax`.
//!
//! ```
//! use typst_syntax::{LinkedNode, Source, SyntaxKind};
//!
//! let mut source = Source::detached("= Hi *a");
//! assert!(source.root().erroneous());
//! assert_eq!(source.edit(7..7, "*"), 0..8);
//! assert!(!source.root().erroneous());
//!
//! let root = LinkedNode::new(source.root());
//! let leaf = root.leftmost_leaf().unwrap();
//! assert_eq!((leaf.kind(), leaf.range()), (SyntaxKind::HeadingMarker, 0..1));
//! ```
//!
//! [`differences`] says what a program that used `typst-syntax` will notice.

mod diagnostic;
#[rustfmt::skip]
mod ffi;
mod handle;
mod highlight;
#[rustfmt::skip]
mod kind;
mod lines;
mod linked;
mod node;
mod refusal;
mod source;
mod span;
mod tree;

pub use diagnostic::{Diagnostic, Hint, Severity};
pub use highlight::{Shown, highlight, highlight_html};
pub use kind::{SyntaxKind, Tag};
pub use lines::Lines;
pub use linked::{LinkedChildren, LinkedNode, Side};
pub use node::{Children, SyntaxNode, parse, parse_code, parse_math};
pub use refusal::Refusal;
pub use source::Source;
pub use span::{FileId, Span, SpanNumber, SubRange};

#[doc = include_str!("../DIFFERENCES.md")]
pub mod differences {}
