//! The calls of the library. All `unsafe` code stands here.

use crate::ffi::{self, Node, Opaque, Position, Remark, Said, Sizes, Stretch};
use crate::refusal::Refusal;
use crate::tree::Tree;
use std::ops::Range;
use std::ptr::{self, NonNull};

/// A source of the library, freed in the end.
pub(crate) struct Handle(NonNull<Opaque>);

// SAFETY: the library proves that a source may move between threads, and `malloc` and `free` may be called by any
// thread. It isn't `Sync`: one call at a time.
unsafe impl Send for Handle {}

impl Drop for Handle {
    fn drop(&mut self) {
        // SAFETY: the pointer came from the library, and nothing has it after this call.
        unsafe { ffi::typst_source_free(self.0.as_ptr()) }
    }
}

impl Handle {
    pub fn new(file: u16, text: &str) -> Result<Handle, Refusal> {
        // SAFETY: pointer and length are of one text, and the last argument is room for a pointer.
        Handle::made(|out| unsafe { ffi::typst_source_new(file, text.as_ptr(), text.len(), out) })
    }

    pub fn copy(&self) -> Result<Handle, Refusal> {
        // SAFETY: the pointer is a source's, and the last argument is room for a pointer.
        Handle::made(|out| unsafe { ffi::typst_source_clone(self.0.as_ptr(), out) })
    }

    /// The source that a call gives out.
    fn made(call: impl FnOnce(*mut *mut Opaque) -> u32) -> Result<Handle, Refusal> {
        let mut out = ptr::null_mut();
        Refusal::check(call(&mut out))?;
        NonNull::new(out).map(Handle).ok_or(Refusal::NoMemory)
    }

    pub fn edit(&mut self, replace: Range<usize>, with: &str) -> Result<Range<usize>, Refusal> {
        let (start, end) = (replace.start, replace.end);
        let (text, length) = (with.as_ptr(), with.len());
        // SAFETY: the pointer is a source's that no other call has, and pointer and length are of one text.
        changed(|out| unsafe {
            ffi::typst_source_edit(self.0.as_ptr(), start, end, text, length, out)
        })
    }

    pub fn replace(&mut self, text: &str) -> Result<Range<usize>, Refusal> {
        // SAFETY: as in `edit`.
        changed(|out| unsafe {
            ffi::typst_source_replace(self.0.as_ptr(), text.as_ptr(), text.len(), out)
        })
    }

    /// The text.
    pub fn text(&self) -> String {
        let mut none = [0; 0];
        // SAFETY: the pointer is a source's, and pointer and length are of one array.
        let length = unsafe { ffi::typst_source_text(self.0.as_ptr(), none.as_mut_ptr(), 0) };
        let mut room = vec![0; length];
        // SAFETY: the same.
        unsafe { ffi::typst_source_text(self.0.as_ptr(), room.as_mut_ptr(), room.len()) };
        String::from_utf8(room).expect("the text of a source is UTF-8")
    }

    /// The records of all nodes, of a text of so many bytes.
    pub fn nodes(&self, bytes: usize) -> Result<Vec<Node>, Refusal> {
        // SAFETY: the pointer is a source's, and `filled` gives pointer and length of one array.
        filled(bytes, |room, length, count| unsafe {
            ffi::typst_source_nodes(self.0.as_ptr(), room, length, count)
        })
    }

    /// The records of the nodes that meet a stretch.
    pub fn nodes_in(&self, bytes: Range<usize>) -> Result<Vec<Node>, Refusal> {
        let (start, end) = (bytes.start, bytes.end);
        // SAFETY: as in `nodes`.
        filled(end.saturating_sub(start), |room, length, count| unsafe {
            ffi::typst_source_nodes_in(self.0.as_ptr(), start, end, room, length, count)
        })
    }

    /// The bytes of the node with a span.
    pub fn range(&self, span: u64) -> Option<Range<usize>> {
        let (mut found, mut stretch) = (0, Stretch::default());
        // SAFETY: the pointer is a source's, and the others are room for what is reported.
        unsafe { ffi::typst_source_range(self.0.as_ptr(), span, &mut found, &mut stretch) };
        (found != 0).then_some(stretch.start..stretch.end)
    }

    /// The position of a byte at which a character begins, or of the end.
    pub fn position(&self, byte: usize) -> Option<Position> {
        let mut told = Position::default();
        // SAFETY: the same.
        let code = unsafe { ffi::typst_source_position(self.0.as_ptr(), byte, &mut told) };
        (code == ffi::OK).then_some(told)
    }

    /// The byte of a position, by its line and a column in some unit.
    pub fn byte(&self, line: usize, column: usize, unit: u32) -> Option<usize> {
        let mut told = 0;
        // SAFETY: the same.
        let code =
            unsafe { ffi::typst_source_byte(self.0.as_ptr(), line, column, unit, &mut told) };
        (code == ffi::OK).then_some(told)
    }

    /// The remarks, and their messages in one text.
    pub fn remarks(&self) -> Result<(Vec<Remark>, String), Refusal> {
        let said = self.put_remarks(&mut [], &mut [])?;
        let mut remarks = vec![Remark::default(); said.remarks];
        let mut messages = vec![0; said.messages];
        self.put_remarks(&mut remarks, &mut messages)?;
        Ok((
            remarks,
            String::from_utf8(messages).expect("messages are UTF-8"),
        ))
    }

    fn put_remarks(&self, room: &mut [Remark], messages: &mut [u8]) -> Result<Said, Refusal> {
        let mut said = Said::default();
        let (text, length) = (messages.as_mut_ptr(), messages.len());
        // SAFETY: the pointer is a source's, and pointers and lengths are those of two arrays.
        Refusal::check(unsafe {
            ffi::typst_source_remarks(
                self.0.as_ptr(),
                room.as_mut_ptr(),
                room.len(),
                text,
                length,
                &mut said,
            )
        })?;
        Ok(said)
    }
}

/// The tree of a text that is read as a mode says, with what is said of its nodes.
pub(crate) fn parsed(mode: u32, text: &str) -> Result<Tree, Refusal> {
    let mut nodes = Vec::with_capacity(text.len() / 2 + 64);
    let mut remarks = Vec::with_capacity(16);
    let mut messages = Vec::with_capacity(1024);
    while !parse_into(mode, text, &mut nodes, &mut remarks, &mut messages)? {}
    Ok(Tree {
        text: text.into(),
        nodes,
        remarks,
        messages: String::from_utf8(messages).expect("messages are UTF-8"),
    })
}

/// Fills three empty lists, or, if one of them is too short, makes room in all and answers `false`.
fn parse_into(
    mode: u32,
    text: &str,
    nodes: &mut Vec<Node>,
    remarks: &mut Vec<Remark>,
    messages: &mut Vec<u8>,
) -> Result<bool, Refusal> {
    let mut sizes = Sizes::default();
    // SAFETY: pointers and lengths are of one text and of three arrays, and the last argument is room for sizes.
    Refusal::check(unsafe {
        ffi::typst_parse_all(
            mode,
            text.as_ptr(),
            text.len(),
            nodes.as_mut_ptr(),
            nodes.capacity(),
            remarks.as_mut_ptr(),
            remarks.capacity(),
            messages.as_mut_ptr(),
            messages.capacity(),
            &mut sizes,
        )
    })?;
    let fits = sizes.nodes <= nodes.capacity()
        && sizes.remarks <= remarks.capacity()
        && sizes.messages <= messages.capacity();
    if fits {
        // SAFETY: the library has filled so many elements of each.
        unsafe {
            nodes.set_len(sizes.nodes);
            remarks.set_len(sizes.remarks);
            messages.set_len(sizes.messages);
        }
    } else {
        nodes.reserve(sizes.nodes);
        remarks.reserve(sizes.remarks);
        messages.reserve(sizes.messages);
    }
    Ok(fits)
}

/// A text as HTML.
pub(crate) fn html(text: &str) -> Result<String, Refusal> {
    let mut room = Vec::with_capacity(8 * text.len() + 64);
    loop {
        let mut count = 0;
        // SAFETY: pointers and lengths are of one text and of one array.
        Refusal::check(unsafe {
            ffi::typst_highlight_html(
                text.as_ptr(),
                text.len(),
                room.as_mut_ptr(),
                room.capacity(),
                &mut count,
            )
        })?;
        if count <= room.capacity() {
            // SAFETY: the library has written so many bytes.
            unsafe { room.set_len(count) };
            return Ok(String::from_utf8(room).expect("HTML is UTF-8"));
        }
        room.reserve(count);
    }
}

/// The stretch that a call reports.
fn changed(call: impl FnOnce(*mut Stretch) -> u32) -> Result<Range<usize>, Refusal> {
    let mut stretch = Stretch::default();
    Refusal::check(call(&mut stretch))?;
    Ok(stretch.start..stretch.end)
}

/// The records that a call fills: with room for as many as so many bytes mostly have, and again where there are more.
fn filled(
    bytes: usize,
    call: impl Fn(*mut Node, usize, *mut usize) -> u32,
) -> Result<Vec<Node>, Refusal> {
    let mut room = bytes / 2 + 64;
    loop {
        let mut nodes: Vec<Node> = Vec::with_capacity(room);
        let mut count = 0;
        Refusal::check(call(nodes.as_mut_ptr(), room, &mut count))?;
        if count <= room {
            // SAFETY: the library has filled so many records.
            unsafe { nodes.set_len(count) };
            return Ok(nodes);
        }
        room = count;
    }
}

/// That the library has the version that this crate is made for.
pub(crate) fn check_version() {
    // SAFETY: it takes nothing.
    let version = unsafe { ffi::typst_abi_version() };
    assert_eq!(version, ffi::VERSION, "the library has another version");
}
