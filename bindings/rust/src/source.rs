//! Texts with their trees.

use crate::handle::{Handle, check_version};
use crate::lines::Lines;
use crate::linked::LinkedNode;
use crate::node::SyntaxNode;
use crate::refusal::Refusal;
use crate::span::{FileId, Span, SpanNumber, SubRange};
use std::cell::OnceCell;
use std::fmt::{self, Debug, Formatter};
use std::ops::Range;
use std::sync::Arc;

/// A text with its tree, which is kept through edits.
///
/// `try_` in a name is for programs that go on where a call is refused; the calls without it panic. A source can be
/// sent to another thread, and be used by one at a time.
///
/// ```
/// use typst_syntax::Source;
///
/// let mut source = Source::detached("= Hi");
/// source.edit(4..4, " there");
/// assert_eq!(source.text(), "= Hi there");
/// std::thread::spawn(move || source.replace("- Hi")).join().unwrap();
/// ```
pub struct Source {
    pub(crate) handle: Handle,
    id: FileId,
    text: OnceCell<Arc<str>>,
    root: OnceCell<SyntaxNode>,
}

impl Source {
    /// A source of a file's text.
    pub fn new(id: FileId, text: String) -> Source {
        Source::try_new(id, text).unwrap_or_else(|it| panic!("{it}"))
    }

    /// The same, where it may be refused.
    pub fn try_new(id: FileId, text: String) -> Result<Source, Refusal> {
        check_version();
        let handle = Handle::new(id.get(), &text)?;
        Ok(Source {
            handle,
            id,
            text: OnceCell::from(Arc::from(text)),
            root: OnceCell::new(),
        })
    }

    /// A source of a text in file 1.
    pub fn detached(text: impl Into<String>) -> Source {
        Source::new(FileId::new(1).expect("1 is a file"), text.into())
    }

    /// The same source again, which goes its own way from now on.
    pub fn try_clone(&self) -> Result<Source, Refusal> {
        let handle = self.handle.copy()?;
        Ok(Source {
            handle,
            id: self.id,
            text: self.text.clone(),
            root: self.root.clone(),
        })
    }

    /// The tree of the present text. It is read when it is asked for, once after each edit.
    pub fn root(&self) -> &SyntaxNode {
        self.root.get_or_init(|| {
            let tree = SyntaxNode::kept(self.shared_text().clone(), &self.handle);
            SyntaxNode::root_of(tree.unwrap_or_else(|it| panic!("{it}")))
        })
    }

    /// The file.
    pub fn id(&self) -> FileId {
        self.id
    }

    /// The present text.
    pub fn text(&self) -> &str {
        self.shared_text()
    }

    /// The lines and positions of the present text.
    pub fn lines(&self) -> Lines<'_> {
        Lines::of(self)
    }

    fn shared_text(&self) -> &Arc<str> {
        self.text.get_or_init(|| self.handle.text().into())
    }

    /// Puts a text in the place of a range of bytes, and answers which bytes of the new text were read again.
    ///
    /// ```
    /// let mut source = typst_syntax::Source::detached("= Hi *a");
    /// assert_eq!(source.edit(7..7, "*"), 0..8);
    /// assert_eq!(source.text(), "= Hi *a*");
    /// ```
    #[track_caller]
    pub fn edit(&mut self, replace: Range<usize>, with: &str) -> Range<usize> {
        self.try_edit(replace, with)
            .unwrap_or_else(|it| panic!("{it}"))
    }

    /// The same, where it may be refused.
    pub fn try_edit(&mut self, replace: Range<usize>, with: &str) -> Result<Range<usize>, Refusal> {
        let changed = self.handle.edit(replace, with)?;
        self.forget();
        Ok(changed)
    }

    /// Makes another text the source's by an edit of what differs, and answers which bytes were read again.
    ///
    /// ```
    /// let mut source = typst_syntax::Source::detached("a\n\n*b*\n\nc");
    /// assert_eq!(source.replace("a\n\n*b*\n\nc"), 0..0);
    /// assert!(!source.replace("a\n\n*bb*\n\nc").is_empty());
    /// assert_eq!(source.text(), "a\n\n*bb*\n\nc");
    /// ```
    pub fn replace(&mut self, new: &str) -> Range<usize> {
        self.try_replace(new).unwrap_or_else(|it| panic!("{it}"))
    }

    /// The same, where it may be refused.
    pub fn try_replace(&mut self, new: &str) -> Result<Range<usize>, Refusal> {
        let changed = self.handle.replace(new)?;
        self.forget();
        Ok(changed)
    }

    /// Forgets what was read before an edit.
    fn forget(&mut self) {
        self.text.take();
        self.root.take();
    }

    /// The node with a span.
    ///
    /// ```
    /// let source = typst_syntax::Source::detached("= Hi");
    /// let heading = source.root().children().next().unwrap();
    /// assert_eq!(source.find(heading.span()).unwrap().range(), 0..4);
    /// ```
    pub fn find(&self, span: Span) -> Option<LinkedNode<'_>> {
        if span.id() != Some(self.id) {
            return None;
        }
        LinkedNode::new(self.root()).find(span)
    }

    /// The bytes of the node with a number, or of a part of it.
    ///
    /// ```
    /// use typst_syntax::{Source, SubRange};
    ///
    /// let source = Source::detached("= Hi");
    /// let (_, number) = source.root().children().next().unwrap().span().get().unwrap();
    /// assert_eq!(source.range(number, None), Some(0..4));
    /// assert_eq!(source.range(number, SubRange::new(2, 4)), Some(2..4));
    /// assert_eq!(source.range(number, SubRange::new(2, 5)), None);
    /// ```
    pub fn range(&self, number: SpanNumber, part: Option<SubRange>) -> Option<Range<usize>> {
        let whole = self.handle.range(Span::of(self.id, number).0)?;
        match part {
            None => Some(whole),
            Some(part) => {
                let range = part.to_absolute(whole.start);
                (range.end <= whole.end).then_some(range)
            }
        }
    }

    /// The kinds, tags and bytes of the nodes that have a byte of a range or touch its ends, with all above them: after
    /// an edit this is much less work than the whole tree is.
    ///
    /// ```
    /// use typst_syntax::{Source, SyntaxKind};
    ///
    /// let source = Source::detached("a\n\n*b*");
    /// let shown = source.nodes_in(0..1);
    /// assert_eq!((shown[1].kind, shown[1].range.clone()), (SyntaxKind::Text, 0..1));
    /// ```
    pub fn nodes_in(&self, bytes: Range<usize>) -> Vec<crate::Shown> {
        let nodes = self
            .handle
            .nodes_in(bytes)
            .unwrap_or_else(|it| panic!("{it}"));
        nodes.iter().map(crate::Shown::of).collect()
    }
}

impl Clone for Source {
    fn clone(&self) -> Source {
        self.try_clone().unwrap_or_else(|it| panic!("{it}"))
    }
}

impl Debug for Source {
    fn fmt(&self, f: &mut Formatter) -> fmt::Result {
        write!(f, "Source({})", self.id.get())
    }
}

impl AsRef<str> for Source {
    fn as_ref(&self) -> &str {
        self.text()
    }
}
