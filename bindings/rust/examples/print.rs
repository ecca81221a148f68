//! Reads a document of Typst from standard input, and prints what the library says of it.
//!
//!     print tree                    the tree, with bytes and what is said of nodes
//!     print tags                    the bytes and the tag of each node that has one
//!     print html                    the text as HTML
//!     print edit START END TEXT     the bytes that an edit reads again, and the tree after it

use std::error::Error;
use std::io::{self, BufWriter, Read, Write};
use typst_syntax::{LinkedNode, Severity, Source, SyntaxNode, highlight, highlight_html, parse};

fn main() -> Result<(), Box<dyn Error>> {
    let words: Vec<String> = std::env::args().skip(1).collect();
    let words: Vec<&str> = words.iter().map(String::as_str).collect();
    let mut text = String::new();
    io::stdin().read_to_string(&mut text)?;
    let mut out = BufWriter::new(io::stdout().lock());
    match words[..] {
        ["tree"] => print_tree(&mut out, &parse(&text))?,
        ["tags"] => print_tags(&mut out, &parse(&text))?,
        ["html"] => writeln!(out, "{}", highlight_html(&text))?,
        ["edit", start, end, with] => {
            let mut source = Source::detached(text);
            let changed = source.try_edit(start.parse()?..end.parse()?, with)?;
            writeln!(out, "{}..{}", changed.start, changed.end)?;
            print_tree(&mut out, source.root())?;
        }
        _ => return Err("usage: print tree | tags | html | edit START END TEXT".into()),
    }
    Ok(out.flush()?)
}

/// Prints the nodes, each a level deeper than its parent, by a loop, since a tree can be very deep.
fn print_tree(out: &mut impl Write, root: &SyntaxNode) -> io::Result<()> {
    let mut rows = vec![LinkedNode::new(root).children()];
    print_node(out, LinkedNode::new(root), 0)?;
    while let Some(row) = rows.last_mut() {
        match row.next() {
            None => drop(rows.pop()),
            Some(node) => {
                print_node(out, node, rows.len())?;
                rows.push(node.children());
            }
        }
    }
    Ok(())
}

/// Prints a node and what is said of it. An error's own message stands in the node's line.
fn print_node(out: &mut impl Write, node: LinkedNode, depth: usize) -> io::Result<()> {
    let (range, said) = (node.range(), node.get().diagnostics());
    write!(
        out,
        "{:depth$}{:?} {}..{}",
        "",
        node.kind(),
        range.start,
        range.end,
        depth = 2 * depth
    )?;
    let is_own = node.kind().is_error() && !said.is_empty();
    if !is_own {
        writeln!(out)?;
    }
    let indent = " ".repeat(2 * depth + 2);
    for (at, diagnostic) in said.iter().enumerate() {
        let message = one_line(&diagnostic.message);
        match diagnostic.severity {
            _ if at == 0 && is_own => writeln!(out, " {message}")?,
            Severity::Error => writeln!(out, "{indent}error: {message}")?,
            Severity::Warning => writeln!(out, "{indent}warning: {message}")?,
        }
        for hint in &diagnostic.hints {
            writeln!(out, "{indent}hint: {}", one_line(&hint.message))?;
        }
    }
    Ok(())
}

fn one_line(message: &str) -> String {
    let is_end = |c| matches!(c, '\n'..='\r' | '\u{85}' | '\u{2028}' | '\u{2029}');
    message.replace(is_end, " ")
}

fn print_tags(out: &mut impl Write, root: &SyntaxNode) -> io::Result<()> {
    let mut rows = vec![LinkedNode::new(root).children()];
    while let Some(row) = rows.last_mut() {
        let Some(node) = row.next() else {
            rows.pop();
            continue;
        };
        if let Some(tag) = highlight(&node) {
            writeln!(out, "{}..{} {tag:?}", node.range().start, node.range().end)?;
        }
        rows.push(node.children());
    }
    Ok(())
}
