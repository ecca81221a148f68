//! The records of a tree, with its text.

use crate::diagnostic::{Diagnostic, Hint, Severity};
use crate::ffi::{self, Node, Remark};
use crate::span::Span;
use std::ops::Range;
use std::sync::Arc;

/// All that the library said of a text. Nodes go by their numbers, which are their places in `nodes`.
pub(crate) struct Tree {
    pub text: Arc<str>,
    pub nodes: Vec<Node>,
    pub remarks: Vec<Remark>,
    pub messages: String,
}

impl Tree {
    pub fn node(&self, number: u32) -> &Node {
        &self.nodes[number as usize]
    }

    /// The number after those of a node and all below it.
    pub fn behind(&self, number: u32) -> u32 {
        number + self.node(number).nodes
    }

    /// The bytes of a node.
    pub fn bytes(&self, number: u32) -> Range<usize> {
        let node = self.node(number);
        node.start as usize..node.end as usize
    }

    /// The child of a node that is another one, or stands above it.
    pub fn child_over(&self, parent: u32, below: u32) -> u32 {
        let mut number = below;
        while self.node(number).parent != parent {
            number = self.node(number).parent;
        }
        number
    }

    /// What is said of nodes of some numbers.
    pub fn diagnostics(&self, numbers: Range<u32>) -> Vec<Diagnostic> {
        let mut said: Vec<Diagnostic> = Vec::new();
        for remark in self.remarks_of(numbers) {
            let (range, message) = (
                remark.start as usize..remark.end as usize,
                self.message(remark),
            );
            match (remark.severity, said.last_mut()) {
                (ffi::HINT, Some(last)) => last.hints.push(Hint { range, message }),
                (severity, _) => said.push(Diagnostic {
                    severity: if severity == ffi::ERROR {
                        Severity::Error
                    } else {
                        Severity::Warning
                    },
                    span: Span(self.node(remark.node).span),
                    range,
                    message,
                    hints: Vec::new(),
                }),
            }
        }
        said
    }

    /// Whether an error is on one of these nodes.
    pub fn has_error(&self, numbers: Range<u32>) -> bool {
        let is_error = |node: &Node| u32::from(node.flags) & ffi::IS_ERROR != 0;
        self.nodes[numbers.start as usize..numbers.end as usize]
            .iter()
            .any(is_error)
            || self
                .remarks_of(numbers)
                .iter()
                .any(|it| it.severity == ffi::ERROR)
    }

    fn remarks_of(&self, numbers: Range<u32>) -> &[Remark] {
        let place = |number| self.remarks.partition_point(|it| it.node < number);
        &self.remarks[place(numbers.start)..place(numbers.end)]
    }

    fn message(&self, remark: &Remark) -> String {
        let start = remark.message as usize;
        self.messages[start..start + remark.message_len as usize].to_string()
    }
}
