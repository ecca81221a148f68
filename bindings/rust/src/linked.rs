//! Nodes with their places.

use crate::highlight::tag_of;
use crate::kind::{KINDS, SyntaxKind, Tag};
use crate::node::SyntaxNode;
use crate::span::{Span, SpanNumber};
use crate::tree::Tree;
use std::fmt::{self, Debug, Formatter};
use std::ops::Range;

/// A node with its place below a root. Its steps take no memory.
///
/// ```
/// use typst_syntax::{LinkedNode, Side, SyntaxKind, parse};
///
/// let root = parse("#let x = 1");
/// let linked = LinkedNode::new(&root);
/// let name = linked.leaf_at(5, Side::After).unwrap();
/// assert_eq!((name.kind(), name.leaf_text()), (SyntaxKind::Ident, "x"));
/// assert_eq!(name.parent_kind(), Some(SyntaxKind::LetBinding));
/// assert_eq!(name.next_leaf().unwrap().kind(), SyntaxKind::Eq);
/// ```
#[derive(Clone, Copy)]
pub struct LinkedNode<'a> {
    root: &'a SyntaxNode,
    number: u32,
}

/// On which side of a byte a leaf is looked for.
#[derive(Debug, Clone, Copy, PartialEq, Eq, Hash)]
pub enum Side {
    /// The leaf that ends there, or has bytes on both sides.
    Before,
    /// The leaf that begins there, or has bytes on both sides.
    After,
}

impl<'a> LinkedNode<'a> {
    /// A root, at byte 0 and without a parent, whatever is above it.
    pub fn new(root: &'a SyntaxNode) -> LinkedNode<'a> {
        LinkedNode {
            root,
            number: root.number,
        }
    }

    fn tree(&self) -> &'a Tree {
        &self.root.tree
    }

    fn at(&self, number: u32) -> LinkedNode<'a> {
        LinkedNode {
            root: self.root,
            number,
        }
    }

    /// The numbers of the node and all below it.
    fn numbers(&self) -> Range<u32> {
        self.number..self.tree().behind(self.number)
    }

    /// The node without its place.
    pub fn get(&self) -> SyntaxNode {
        SyntaxNode {
            tree: self.root.tree.clone(),
            number: self.number,
        }
    }

    /// What it is.
    pub fn kind(&self) -> SyntaxKind {
        KINDS[self.tree().node(self.number).kind as usize]
    }

    /// Its span.
    pub fn span(&self) -> Span {
        Span(self.tree().node(self.number).span)
    }

    /// How many bytes it has.
    pub fn len(&self) -> usize {
        self.range().len()
    }

    /// Whether it has no bytes.
    pub fn is_empty(&self) -> bool {
        self.range().is_empty()
    }

    /// Its text, if it is a leaf; else an empty one.
    pub fn leaf_text(&self) -> &'a str {
        let is_inner = self.tree().node(self.number).flags & 1 != 0;
        if is_inner {
            ""
        } else {
            &self.tree().text[self.tree().bytes(self.number)]
        }
    }

    /// Its first byte, from the root's.
    pub fn offset(&self) -> usize {
        self.range().start
    }

    /// Its bytes, from the root's first.
    pub fn range(&self) -> Range<usize> {
        let first = self.root.record().start as usize;
        let bytes = self.tree().bytes(self.number);
        bytes.start - first..bytes.end - first
    }

    /// How many siblings stand before it.
    pub fn index(&self) -> usize {
        let siblings = self.parent().into_iter().flat_map(|it| it.children());
        siblings.take_while(|it| it.number < self.number).count()
    }

    /// Its children, from both ends.
    pub fn children(&self) -> LinkedChildren<'a> {
        let numbers = self.numbers();
        LinkedChildren {
            parent: *self,
            front: numbers.start + 1,
            back: numbers.end,
        }
    }

    /// The node that it is a child of.
    pub fn parent(&self) -> Option<LinkedNode<'a>> {
        (self.number != self.root.number).then(|| self.at(self.tree().node(self.number).parent))
    }

    /// What its parent is.
    pub fn parent_kind(&self) -> Option<SyntaxKind> {
        Some(self.parent()?.kind())
    }

    /// The nearest sibling before it that is no trivia.
    ///
    /// ```
    /// use typst_syntax::{LinkedNode, SyntaxKind, parse};
    ///
    /// let root = parse("*a* b");
    /// let last = LinkedNode::new(&root).children().next_back().unwrap();
    /// assert_eq!(last.prev_sibling().unwrap().kind(), SyntaxKind::Strong);
    /// assert_eq!(last.prev_sibling().unwrap().next_sibling().unwrap().range(), 4..5);
    /// ```
    pub fn prev_sibling(&self) -> Option<LinkedNode<'a>> {
        let parent = self.parent()?;
        let before = LinkedChildren {
            parent,
            front: parent.number + 1,
            back: self.number,
        };
        before.rev().find(|it| !it.kind().is_trivia())
    }

    /// The nearest sibling after it that is no trivia.
    pub fn next_sibling(&self) -> Option<LinkedNode<'a>> {
        let parent = self.parent()?;
        let mut behind = LinkedChildren {
            parent,
            front: self.numbers().end,
            back: parent.numbers().end,
        };
        behind.find(|it| !it.kind().is_trivia())
    }

    /// What the nearest sibling before it is that is no trivia.
    pub fn prev_sibling_kind(&self) -> Option<SyntaxKind> {
        Some(self.prev_sibling()?.kind())
    }

    /// What the nearest sibling after it is that is no trivia.
    pub fn next_sibling_kind(&self) -> Option<SyntaxKind> {
        Some(self.next_sibling()?.kind())
    }

    /// Whether it has no children.
    fn is_leaf(&self) -> bool {
        self.tree().node(self.number).nodes == 1
    }

    /// Whether it is a leaf that is neither trivia nor an error.
    fn counts(&self) -> bool {
        self.is_leaf() && !self.kind().is_trivia() && !self.kind().is_error()
    }

    fn first_of(&self, mut numbers: impl Iterator<Item = u32>) -> Option<LinkedNode<'a>> {
        numbers
            .find(|it| self.at(*it).counts())
            .map(|it| self.at(it))
    }

    /// The nearest leaf before it that is neither trivia nor an error.
    pub fn prev_leaf(&self) -> Option<LinkedNode<'a>> {
        self.first_of((self.root.number..self.number).rev())
    }

    /// The nearest leaf after it that is neither trivia nor an error.
    pub fn next_leaf(&self) -> Option<LinkedNode<'a>> {
        self.first_of(self.numbers().end..LinkedNode::new(self.root).numbers().end)
    }

    /// The first leaf at it or below it that is neither trivia nor an error.
    pub fn leftmost_leaf(&self) -> Option<LinkedNode<'a>> {
        self.first_of(self.numbers())
    }

    /// The last leaf at it or below it that is neither trivia nor an error.
    pub fn rightmost_leaf(&self) -> Option<LinkedNode<'a>> {
        self.first_of(self.numbers().rev())
    }

    /// The leaf on a side of a byte, of whatever kind.
    ///
    /// ```
    /// use typst_syntax::{LinkedNode, Side, SyntaxKind, parse};
    ///
    /// let root = parse("*a*");
    /// let linked = LinkedNode::new(&root);
    /// assert_eq!(linked.leaf_at(1, Side::Before).unwrap().kind(), SyntaxKind::Star);
    /// assert_eq!(linked.leaf_at(1, Side::After).unwrap().kind(), SyntaxKind::Text);
    /// assert!(linked.leaf_at(3, Side::After).is_none());
    /// ```
    pub fn leaf_at(&self, byte: usize, side: Side) -> Option<LinkedNode<'a>> {
        let mut node = *self;
        while !node.is_leaf() {
            let last = node.children().next_back()?.number;
            node = node.children().find(|it| match side {
                Side::Before => it.ends_from(byte) || it.offset() == byte && it.number == last,
                Side::After => it.range().contains(&byte),
            })?;
        }
        let range = node.range();
        let is_there = if side == Side::Before {
            byte <= range.end
        } else {
            byte < range.end
        };
        is_there.then_some(node)
    }

    /// Whether a byte is after its first, and not past its end.
    fn ends_from(&self, byte: usize) -> bool {
        let range = self.range();
        range.start < byte && byte <= range.end
    }

    /// The first node at it or below it with a span.
    pub fn find(&self, span: Span) -> Option<LinkedNode<'a>> {
        let node = self.find_raw(span.number())?;
        (node.span() == span).then_some(node)
    }

    /// The first node at it or below it with a number.
    pub fn find_number(&self, number: SpanNumber) -> Option<LinkedNode<'a>> {
        self.find_raw(number.get())
    }

    /// The numbers of spans go up in preorder.
    fn find_raw(&self, wanted: u64) -> Option<LinkedNode<'a>> {
        let numbers = self.numbers();
        let nodes = &self.tree().nodes[numbers.start as usize..numbers.end as usize];
        let place = nodes.partition_point(|it| Span(it.span).number() < wanted);
        let node = nodes.get(place)?;
        (Span(node.span).number() == wanted).then(|| self.at(node.number))
    }

    pub(crate) fn tag(&self) -> Option<Tag> {
        tag_of(self.tree().node(self.number))
    }
}

impl PartialEq for LinkedNode<'_> {
    fn eq(&self, other: &Self) -> bool {
        std::ptr::eq(self.tree(), other.tree()) && self.number == other.number
    }
}

impl Eq for LinkedNode<'_> {}

impl Debug for LinkedNode<'_> {
    fn fmt(&self, f: &mut Formatter) -> fmt::Result {
        write!(f, "{:?} {:?}", self.kind(), self.range())
    }
}

/// The children of a node with their places.
#[derive(Clone)]
pub struct LinkedChildren<'a> {
    parent: LinkedNode<'a>,
    front: u32,
    back: u32,
}

impl<'a> Iterator for LinkedChildren<'a> {
    type Item = LinkedNode<'a>;

    fn next(&mut self) -> Option<LinkedNode<'a>> {
        let number = self.front;
        if number >= self.back {
            return None;
        }
        self.front = self.parent.tree().behind(number);
        Some(self.parent.at(number))
    }
}

impl DoubleEndedIterator for LinkedChildren<'_> {
    fn next_back(&mut self) -> Option<Self::Item> {
        if self.front >= self.back {
            return None;
        }
        self.back = self
            .parent
            .tree()
            .child_over(self.parent.number, self.back - 1);
        Some(self.parent.at(self.back))
    }
}
