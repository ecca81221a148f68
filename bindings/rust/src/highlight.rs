//! How nodes are to be shown.

use crate::ffi;
use crate::handle::{check_version, html};
use crate::kind::{KINDS, SyntaxKind, Tag};
use crate::linked::LinkedNode;
use crate::span::Span;
use std::ops::Range;

/// How a node is to be shown, if in some way.
///
/// ```
/// use typst_syntax::{LinkedNode, Tag, highlight, parse};
///
/// let root = parse("#let x = 1");
/// let tags: Vec<_> = LinkedNode::new(&root).children().filter_map(|it| highlight(&it)).collect();
/// assert_eq!(tags, [Tag::Keyword]);
/// assert_eq!(Tag::Keyword.css_class(), "typ-key");
/// ```
pub fn highlight(node: &LinkedNode) -> Option<Tag> {
    node.tag()
}

/// A text as HTML, with a span for each tag.
///
/// ```
/// use typst_syntax::highlight_html;
///
/// assert_eq!(highlight_html("*a*"), r#"<code><span class="typ-strong">*a*</span></code>"#);
/// ```
pub fn highlight_html(text: &str) -> String {
    check_version();
    html(text).unwrap_or_else(|it| panic!("{it}"))
}

/// The tag of a record.
pub(crate) fn tag_of(node: &ffi::Node) -> Option<Tag> {
    Tag::LIST
        .get(usize::from(node.tag).checked_sub(1)?)
        .copied()
}

/// What is needed to show a node.
#[derive(Debug, Clone, PartialEq, Eq)]
pub struct Shown {
    /// What it is.
    pub kind: SyntaxKind,
    /// How it is to be shown.
    pub tag: Option<Tag>,
    /// Its bytes.
    pub range: Range<usize>,
    /// Its span.
    pub span: Span,
}

impl Shown {
    pub(crate) fn of(node: &ffi::Node) -> Shown {
        Shown {
            kind: KINDS[node.kind as usize],
            tag: tag_of(node),
            range: node.start as usize..node.end as usize,
            span: Span(node.span),
        }
    }
}
