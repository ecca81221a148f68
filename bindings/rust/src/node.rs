//! Nodes of a tree.

use crate::diagnostic::Diagnostic;
use crate::ffi;
use crate::handle::{Handle, check_version, parsed};
use crate::kind::{KINDS, SyntaxKind};
use crate::refusal::Refusal;
use crate::span::Span;
use crate::tree::Tree;
use std::fmt::{self, Debug, Formatter};
use std::sync::Arc;

/// Reads a text as a whole file. Its nodes have no spans.
///
/// It panics where a request for memory is refused, and for a text of 2^32 - 1 bytes or more; so do
/// [`parse_code`] and [`parse_math`].
///
/// ```
/// use typst_syntax::{SyntaxKind, parse};
///
/// let root = parse("Hello *World*");
/// let kinds: Vec<_> = root.children().map(|child| child.kind()).collect();
/// assert_eq!(kinds, [SyntaxKind::Text, SyntaxKind::Space, SyntaxKind::Strong]);
/// ```
pub fn parse(text: &str) -> SyntaxNode {
    SyntaxNode::read_as(ffi::MARKUP, text)
}

/// Reads a text as code, as it stands after a hash. Its nodes have no spans.
///
/// ```
/// use typst_syntax::{SyntaxKind, parse_code};
///
/// assert_eq!(parse_code("1 + x").children().next().unwrap().kind(), SyntaxKind::Binary);
/// ```
pub fn parse_code(text: &str) -> SyntaxNode {
    SyntaxNode::read_as(ffi::CODE, text)
}

/// Reads a text as the inside of a formula. Its nodes have no spans.
///
/// ```
/// use typst_syntax::{SyntaxKind, parse_math};
///
/// assert_eq!(parse_math("x^2").children().next().unwrap().kind(), SyntaxKind::MathAttach);
/// ```
pub fn parse_math(text: &str) -> SyntaxNode {
    SyntaxNode::read_as(ffi::MATH, text)
}

/// A node with all below it. To clone it costs little, as all nodes of a tree share its records.
///
/// ```
/// use typst_syntax::{SyntaxKind, parse};
///
/// let heading = parse("= Hi").children().next().unwrap();
/// assert_eq!((heading.kind(), heading.len()), (SyntaxKind::Heading, 4));
/// assert_eq!((heading.full_text(), heading.descendants()), ("= Hi", 5));
/// ```
#[derive(Clone)]
pub struct SyntaxNode {
    pub(crate) tree: Arc<Tree>,
    pub(crate) number: u32,
}

impl SyntaxNode {
    /// The tree of a source's text.
    pub(crate) fn kept(text: Arc<str>, source: &Handle) -> Result<Tree, Refusal> {
        let nodes = source.nodes(text.len())?;
        let (remarks, messages) = source.remarks()?;
        Ok(Tree {
            text,
            nodes,
            remarks,
            messages,
        })
    }

    fn read_as(mode: u32, text: &str) -> SyntaxNode {
        check_version();
        let tree = parsed(mode, text).unwrap_or_else(|it| panic!("{it}"));
        SyntaxNode::root_of(tree)
    }

    pub(crate) fn root_of(tree: Tree) -> SyntaxNode {
        SyntaxNode {
            tree: Arc::new(tree),
            number: 0,
        }
    }

    pub(crate) fn record(&self) -> &ffi::Node {
        self.tree.node(self.number)
    }

    /// What it is.
    pub fn kind(&self) -> SyntaxKind {
        KINDS[self.record().kind as usize]
    }

    /// How many bytes it has.
    pub fn len(&self) -> usize {
        self.tree.bytes(self.number).len()
    }

    /// Whether it has no bytes.
    pub fn is_empty(&self) -> bool {
        self.len() == 0
    }

    /// Whether it can have children.
    pub fn is_inner(&self) -> bool {
        u32::from(self.record().flags) & ffi::IS_INNER != 0
    }

    /// Its span.
    pub fn span(&self) -> Span {
        Span(self.record().span)
    }

    /// Its text, if it is a leaf; else an empty one.
    pub fn leaf_text(&self) -> &str {
        if self.is_inner() {
            ""
        } else {
            self.full_text()
        }
    }

    /// Its text, with that of all nodes below it.
    ///
    /// ```
    /// let root = typst_syntax::parse("= Hi");
    /// assert_eq!((root.leaf_text(), root.full_text()), ("", "= Hi"));
    /// ```
    pub fn full_text(&self) -> &str {
        &self.tree.text[self.tree.bytes(self.number)]
    }

    /// The same as a `String`.
    pub fn into_text(self) -> String {
        self.full_text().to_string()
    }

    /// Its children.
    pub fn children(&self) -> Children {
        let behind = self.tree.behind(self.number);
        Children {
            parent: self.clone(),
            front: self.number + 1,
            back: behind,
        }
    }

    /// How many nodes there are of it and below it, itself counted.
    pub fn descendants(&self) -> usize {
        self.record().nodes as usize
    }

    /// Whether an error is on it or below it.
    pub fn erroneous(&self) -> bool {
        self.tree
            .has_error(self.number..self.tree.behind(self.number))
    }

    /// What is said of the node itself.
    pub fn diagnostics(&self) -> Vec<Diagnostic> {
        self.tree.diagnostics(self.number..self.number + 1)
    }

    /// What is said of it and of the nodes below it, in the order of the nodes.
    pub fn diagnostics_below(&self) -> Vec<Diagnostic> {
        self.tree
            .diagnostics(self.number..self.tree.behind(self.number))
    }

    /// Whether two nodes have the same text, the same nodes below them, and the same said of these, spans aside.
    ///
    /// ```
    /// use typst_syntax::{Source, parse};
    ///
    /// assert!(Source::detached("= Hi").root().spanless_eq(&parse("= Hi")));
    /// assert!(!parse("= Hi").spanless_eq(&parse("- Hi")));
    /// ```
    pub fn spanless_eq(&self, other: &SyntaxNode) -> bool {
        self.full_text() == other.full_text()
            && self.shapes().eq(other.shapes())
            && self.sayings().eq(other.sayings())
    }

    /// What the nodes are, and where they begin from the beginning of this one.
    fn shapes(&self) -> impl Iterator<Item = (u8, u8, u32, u32)> {
        let first = self.record().start;
        let numbers = self.number as usize..self.tree.behind(self.number) as usize;
        self.tree.nodes[numbers]
            .iter()
            .map(move |it| (it.kind, it.flags, it.nodes, it.start - first))
    }

    /// What is said, and of which bytes from the beginning of this node.
    fn sayings(&self) -> impl Iterator<Item = Diagnostic> {
        let first = self.record().start as usize;
        self.diagnostics_below().into_iter().map(move |mut it| {
            it.span = Span::detached();
            it.range = it.range.start - first..it.range.end - first;
            for hint in &mut it.hints {
                hint.range = hint.range.start - first..hint.range.end - first;
            }
            it
        })
    }
}

impl Debug for SyntaxNode {
    fn fmt(&self, f: &mut Formatter) -> fmt::Result {
        write!(f, "{:?}: {}", self.kind(), self.len())
    }
}

/// The children of a node, from both ends.
#[derive(Clone)]
pub struct Children {
    parent: SyntaxNode,
    front: u32,
    back: u32,
}

impl Children {
    fn node(&self, number: u32) -> SyntaxNode {
        SyntaxNode {
            tree: self.parent.tree.clone(),
            number,
        }
    }
}

impl Iterator for Children {
    type Item = SyntaxNode;

    fn next(&mut self) -> Option<SyntaxNode> {
        let number = self.front;
        if number >= self.back {
            return None;
        }
        self.front = self.parent.tree.behind(number);
        Some(self.node(number))
    }
}

impl DoubleEndedIterator for Children {
    fn next_back(&mut self) -> Option<SyntaxNode> {
        if self.front >= self.back {
            return None;
        }
        self.back = self
            .parent
            .tree
            .child_over(self.parent.number, self.back - 1);
        Some(self.node(self.back))
    }
}
