//! Files, spans and parts of nodes.

use std::num::NonZeroU16;
use std::ops::Range;

/// A file, as a number from 1 on.
///
/// ```
/// use typst_syntax::FileId;
///
/// assert_eq!(FileId::new(7).unwrap().get(), 7);
/// assert!(FileId::new(0).is_none());
/// ```
#[derive(Debug, Clone, Copy, PartialEq, Eq, Hash)]
pub struct FileId(NonZeroU16);

impl FileId {
    /// The file of a number, if it isn't 0.
    pub fn new(number: u16) -> Option<FileId> {
        NonZeroU16::new(number).map(FileId)
    }

    /// Its number.
    pub fn get(self) -> u16 {
        self.0.get()
    }
}

/// A file and the number of a node in it, by which the node is found again; or neither.
///
/// ```
/// use typst_syntax::{Source, Span};
///
/// let source = Source::detached("= Hi");
/// let heading = source.root().children().next().unwrap();
/// assert_eq!(heading.span().id(), Some(source.id()));
/// assert_eq!(source.find(heading.span()).unwrap().range(), 0..4);
/// assert!(Span::detached().is_detached());
/// ```
#[derive(Debug, Clone, Copy, PartialEq, Eq, Hash)]
pub struct Span(pub(crate) u64);

impl Span {
    const BITS: u32 = 48;

    /// The span of a node that is in no file.
    pub const fn detached() -> Span {
        Span(0)
    }

    /// The span of a file and a number.
    pub(crate) fn of(id: FileId, number: SpanNumber) -> Span {
        Span((u64::from(id.get()) << Span::BITS) | number.0)
    }

    /// Whether the node is in no file.
    pub const fn is_detached(self) -> bool {
        self.0 == 0
    }

    /// The file.
    pub fn id(self) -> Option<FileId> {
        FileId::new((self.0 >> Span::BITS) as u16)
    }

    /// The number in the file, or 0.
    pub const fn number(self) -> u64 {
        self.0 & ((1 << Span::BITS) - 1)
    }

    /// The file and the number.
    pub fn get(self) -> Option<(FileId, SpanNumber)> {
        Some((self.id()?, SpanNumber(self.number())))
    }
}

/// The number of a node in its file.
#[derive(Debug, Clone, Copy, PartialEq, Eq, Hash)]
pub struct SpanNumber(pub(crate) u64);

impl SpanNumber {
    /// A number that nodes can have: from 2 up to 2^47 - 1.
    pub fn new(number: u64) -> Option<SpanNumber> {
        (2..1 << 47).contains(&number).then_some(SpanNumber(number))
    }

    /// The number.
    pub fn get(self) -> u64 {
        self.0
    }
}

/// A part of a node, by bytes from its beginning.
///
/// ```
/// use typst_syntax::SubRange;
///
/// assert_eq!(SubRange::new(1, 3).unwrap().to_absolute(10), 11..13);
/// assert!(SubRange::new(3, 1).is_none());
/// ```
#[derive(Debug, Clone, Copy, PartialEq, Eq, Hash)]
pub struct SubRange {
    start: usize,
    end: usize,
}

impl SubRange {
    /// The part from one byte to another one that isn't before it.
    pub fn new(start: usize, end: usize) -> Option<SubRange> {
        (start <= end).then_some(SubRange { start, end })
    }

    /// Its first byte.
    pub fn start(self) -> usize {
        self.start
    }

    /// The byte after it.
    pub fn end(self) -> usize {
        self.end
    }

    /// Its bytes in the text, where the node begins at an offset.
    pub fn to_absolute(self, offset: usize) -> Range<usize> {
        offset + self.start..offset + self.end
    }
}
