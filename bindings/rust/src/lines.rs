//! Lines and positions.

use crate::ffi;
use crate::source::Source;
use std::ops::Range;

/// The lines and positions of a source's text. Lines and columns count from 0, and what counts characters says
/// column.
///
/// ```
/// use typst_syntax::Source;
///
/// let source = Source::detached("a\né💛b");
/// let lines = source.lines();
/// assert_eq!(lines.len_lines(), 2);
/// assert_eq!(lines.byte_to_line_column(8), Some((1, 2)));
/// assert_eq!(lines.byte_to_utf16(8), Some(5));
/// assert_eq!(lines.utf16_to_byte(5), Some(8));
/// assert_eq!(lines.line_column_to_byte(1, 2), Some(8));
/// assert_eq!(lines.line_to_range(0), Some(0..2));
/// assert_eq!(lines.byte_to_column(3), None);
/// ```
#[derive(Clone, Copy)]
pub struct Lines<'a> {
    source: &'a Source,
}

impl<'a> Lines<'a> {
    pub(crate) fn of(source: &'a Source) -> Lines<'a> {
        Lines { source }
    }

    fn position(&self, byte: usize) -> Option<ffi::Position> {
        self.source.handle.position(byte)
    }

    /// The text.
    pub fn text(&self) -> &'a str {
        self.source.text()
    }

    /// How many bytes the text has.
    pub fn len_bytes(&self) -> usize {
        self.text().len()
    }

    /// How many UTF-16 units the text has.
    pub fn len_utf16(&self) -> usize {
        self.end().utf16
    }

    /// How many lines the text has.
    pub fn len_lines(&self) -> usize {
        self.end().line + 1
    }

    fn end(&self) -> ffi::Position {
        self.position(self.len_bytes())
            .expect("the end is a place of the text")
    }

    /// The UTF-16 units before a byte, where a character begins there or the text ends.
    pub fn byte_to_utf16(&self, byte: usize) -> Option<usize> {
        Some(self.position(byte)?.utf16)
    }

    /// The line of a byte, where a character begins there or the text ends.
    pub fn byte_to_line(&self, byte: usize) -> Option<usize> {
        Some(self.position(byte)?.line)
    }

    /// The column of a byte, where a character begins there or the text ends.
    pub fn byte_to_column(&self, byte: usize) -> Option<usize> {
        Some(self.position(byte)?.column)
    }

    /// The line and the column of a byte, where a character begins there or the text ends.
    pub fn byte_to_line_column(&self, byte: usize) -> Option<(usize, usize)> {
        let position = self.position(byte)?;
        Some((position.line, position.column))
    }

    /// The byte with so many UTF-16 units before it.
    pub fn utf16_to_byte(&self, utf16: usize) -> Option<usize> {
        let line = self.line_at_utf16(utf16)?;
        let before = self.byte_to_utf16(self.line_to_byte(line)?)?;
        self.source.handle.byte(line, utf16 - before, ffi::UTF16)
    }

    /// The last line that begins with so many UTF-16 units before it, or fewer.
    fn line_at_utf16(&self, utf16: usize) -> Option<usize> {
        let (mut from, mut to) = (0, self.len_lines());
        while to - from > 1 {
            let middle = from + (to - from) / 2;
            let before = self.byte_to_utf16(self.line_to_byte(middle)?)?;
            if before <= utf16 {
                from = middle
            } else {
                to = middle
            }
        }
        Some(from)
    }

    /// The byte at which a line begins.
    pub fn line_to_byte(&self, line: usize) -> Option<usize> {
        self.source.handle.byte(line, 0, ffi::BYTES)
    }

    /// The bytes of a line, with its line end.
    pub fn line_to_range(&self, line: usize) -> Option<Range<usize>> {
        let start = self.line_to_byte(line)?;
        Some(start..self.line_to_byte(line + 1).unwrap_or(self.len_bytes()))
    }

    /// The byte at a column of a line.
    pub fn line_column_to_byte(&self, line: usize, column: usize) -> Option<usize> {
        self.source.handle.byte(line, column, ffi::CHARACTERS)
    }
}
