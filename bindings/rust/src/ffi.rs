//! What the library gives out. Made by bindings/tables: change bindings/abi.toml.

#![allow(dead_code)]

use std::mem::offset_of;

/// The version of the library that this is made for.
pub const VERSION: u32 = 1;

/// The call was made.
pub const OK: u32 = 0;

/// A request for memory was refused.
pub const NO_MEMORY: u32 = 1;

/// A text isn't UTF-8.
pub const NOT_UTF8: u32 = 2;

/// A range isn't one of the text, or an end of it lies within a character.
pub const BAD_RANGE: u32 = 3;

/// An argument is none of those that there are.
pub const BAD_ARGUMENT: u32 = 4;

/// There are fewer span numbers than nodes.
pub const SPAN_NUMBERS: u32 = 5;

/// The text, or the tree, is too large for records.
pub const TOO_LARGE: u32 = 6;

/// A whole file.
pub const MARKUP: u32 = 0;

/// Code, as after a hash.
pub const CODE: u32 = 1;

/// The inside of a formula.
pub const MATH: u32 = 2;

/// It can have children; a node without this bit is a leaf.
pub const IS_INNER: u32 = 1;

/// It is text that is no syntax.
pub const IS_ERROR: u32 = 2;

/// Remarks are on it.
pub const HAS_REMARKS: u32 = 4;

/// An error.
pub const ERROR: u32 = 1;

/// A warning.
pub const WARNING: u32 = 2;

/// A hint on the error or warning before it.
pub const HINT: u32 = 3;

/// Characters.
pub const CHARACTERS: u32 = 0;

/// UTF-16 units.
pub const UTF16: u32 = 1;

/// Bytes.
pub const BYTES: u32 = 2;

/// A source, into which only the library looks.
#[repr(C)]
pub struct Opaque {
    _nothing: [u8; 0],
}

/// A node of a tree. Records stand in preorder: after a node stand the records of all that is below it,
/// so its first child is the next record, and the next sibling stands `nodes` records on, if the parent's
/// subtree goes so far.
#[repr(C)]
#[derive(Debug, Clone, Copy, Default, PartialEq, Eq)]
pub struct Node {
    pub span: u64,
    pub start: u32,
    pub end: u32,
    pub number: u32,
    pub nodes: u32,
    pub parent: u32,
    pub kind: u8,
    pub tag: u8,
    pub flags: u8,
    pub spare: u8,
}

/// An error or a warning on a node, or a hint on the last of these before it.
#[repr(C)]
#[derive(Debug, Clone, Copy, Default, PartialEq, Eq)]
pub struct Remark {
    pub node: u32,
    pub start: u32,
    pub end: u32,
    pub message: u32,
    pub message_len: u32,
    pub severity: u32,
}

/// How much room all of a source or of a parsed text takes.
#[repr(C)]
#[derive(Debug, Clone, Copy, Default, PartialEq, Eq)]
pub struct Sizes {
    pub text: usize,
    pub nodes: usize,
    pub remarks: usize,
    pub messages: usize,
}

/// How much there is of remarks.
#[repr(C)]
#[derive(Debug, Clone, Copy, Default, PartialEq, Eq)]
pub struct Said {
    pub remarks: usize,
    pub messages: usize,
}

/// A stretch of bytes.
#[repr(C)]
#[derive(Debug, Clone, Copy, Default, PartialEq, Eq)]
pub struct Stretch {
    pub start: usize,
    pub end: usize,
}

/// A place in a text. Lines and columns count from 0.
#[repr(C)]
#[derive(Debug, Clone, Copy, Default, PartialEq, Eq)]
pub struct Position {
    pub line: usize,
    pub column: usize,
    pub utf16_column: usize,
    pub utf16: usize,
}

unsafe extern "C" {
    pub fn typst_abi_version() -> u32;
    pub fn typst_kind_count() -> usize;
    pub fn typst_kind_name(kind: u32, room: *mut u8, room_length: usize) -> usize;
    pub fn typst_kind_of(name: *const u8, length: usize) -> u32;
    pub fn typst_tag_name(tag: u32, room: *mut u8, room_length: usize) -> usize;
    pub fn typst_parse(mode: u32, text: *const u8, length: usize, room: *mut Node, room_length: usize, count: *mut usize) -> u32;
    pub fn typst_parse_all(mode: u32, text: *const u8, length: usize, room: *mut Node, room_length: usize, remarks: *mut Remark, remarks_length: usize, messages: *mut u8, messages_length: usize, sizes: *mut Sizes) -> u32;
    pub fn typst_highlight_html(text: *const u8, length: usize, room: *mut u8, room_length: usize, count: *mut usize) -> u32;
    pub fn typst_source_new(file: u16, text: *const u8, length: usize, source: *mut *mut Opaque) -> u32;
    pub fn typst_source_free(source: *mut Opaque);
    pub fn typst_source_clone(source: *mut Opaque, copied: *mut *mut Opaque) -> u32;
    pub fn typst_source_edit(source: *mut Opaque, start: usize, end: usize, with: *const u8, length: usize, changed: *mut Stretch) -> u32;
    pub fn typst_source_replace(source: *mut Opaque, text: *const u8, length: usize, changed: *mut Stretch) -> u32;
    pub fn typst_source_sizes(source: *mut Opaque, room: *mut Sizes) -> u32;
    pub fn typst_source_text(source: *mut Opaque, room: *mut u8, room_length: usize) -> usize;
    pub fn typst_source_nodes(source: *mut Opaque, room: *mut Node, room_length: usize, count: *mut usize) -> u32;
    pub fn typst_source_nodes_in(source: *mut Opaque, start: usize, end: usize, room: *mut Node, room_length: usize, count: *mut usize) -> u32;
    pub fn typst_source_remarks(source: *mut Opaque, room: *mut Remark, room_length: usize, messages: *mut u8, messages_length: usize, count: *mut Said) -> u32;
    pub fn typst_source_range(source: *mut Opaque, span: u64, found: *mut u8, range: *mut Stretch) -> u32;
    pub fn typst_source_position(source: *mut Opaque, byte: usize, position: *mut Position) -> u32;
    pub fn typst_source_byte(source: *mut Opaque, line: usize, column: usize, unit: u32, byte: *mut usize) -> u32;
}

const _: () = {
    assert!(size_of::<Node>() == 32);
    assert!(offset_of!(Node, span) == 0);
    assert!(offset_of!(Node, start) == 8);
    assert!(offset_of!(Node, end) == 12);
    assert!(offset_of!(Node, number) == 16);
    assert!(offset_of!(Node, nodes) == 20);
    assert!(offset_of!(Node, parent) == 24);
    assert!(offset_of!(Node, kind) == 28);
    assert!(offset_of!(Node, tag) == 29);
    assert!(offset_of!(Node, flags) == 30);
    assert!(offset_of!(Node, spare) == 31);
    assert!(size_of::<Remark>() == 24);
    assert!(offset_of!(Remark, node) == 0);
    assert!(offset_of!(Remark, start) == 4);
    assert!(offset_of!(Remark, end) == 8);
    assert!(offset_of!(Remark, message) == 12);
    assert!(offset_of!(Remark, message_len) == 16);
    assert!(offset_of!(Remark, severity) == 20);
    assert!(size_of::<Sizes>() == 32);
    assert!(offset_of!(Sizes, text) == 0);
    assert!(offset_of!(Sizes, nodes) == 8);
    assert!(offset_of!(Sizes, remarks) == 16);
    assert!(offset_of!(Sizes, messages) == 24);
    assert!(size_of::<Said>() == 16);
    assert!(offset_of!(Said, remarks) == 0);
    assert!(offset_of!(Said, messages) == 8);
    assert!(size_of::<Stretch>() == 16);
    assert!(offset_of!(Stretch, start) == 0);
    assert!(offset_of!(Stretch, end) == 8);
    assert!(size_of::<Position>() == 32);
    assert!(offset_of!(Position, line) == 0);
    assert!(offset_of!(Position, column) == 8);
    assert!(offset_of!(Position, utf16_column) == 16);
    assert!(offset_of!(Position, utf16) == 24);
};
