//! Trials of the crate: random edits, steps, chains, threads, refusals.
//!
//! `TRIAL_EDITS` and `TRIAL_LINKS` say how many edits are made, and how long chains are.

use std::collections::HashMap;
use typst_syntax::{
    Diagnostic, LinkedNode, Refusal, Side, Source, Span, SyntaxKind, SyntaxNode, parse, parse_code,
    parse_math,
};

const PIECES: [&str; 34] = [
    "a",
    " ",
    "\n",
    "\n\n",
    "*",
    "_",
    "= ",
    "- ",
    "/ ",
    "#",
    "#let x = 1\n",
    "#f(1, y: 2)",
    "[",
    "]",
    "{",
    "}",
    "(",
    ")",
    "$",
    "$x^2$",
    "/*",
    "*/",
    "// c\n",
    "`",
    "```",
    "\"",
    "\\",
    "@t",
    "<t>",
    "é",
    "💛",
    "\r\n",
    "\u{2028}",
    "1.5em",
];

/// The number of an environment variable.
fn told(name: &str, usual: usize) -> usize {
    std::env::var(name)
        .ok()
        .and_then(|it| it.parse().ok())
        .unwrap_or(usual)
}

/// Numbers that look random.
struct Draw(u64);

impl Draw {
    fn below(&mut self, limit: usize) -> usize {
        self.0 ^= self.0 << 13;
        self.0 ^= self.0 >> 7;
        self.0 ^= self.0 << 17;
        (self.0 >> 11) as usize % limit.max(1)
    }

    /// A place between two characters, in a stretch.
    fn place(&mut self, text: &str, from: usize, to: usize) -> usize {
        let mut at = from + self.below(to - from + 1);
        while !text.is_char_boundary(at) {
            at -= 1;
        }
        at
    }
}

/// Makes random edits, and compares the source with a newly made one after each.
fn edit_at_random(seed: u64, many: usize) -> usize {
    let (mut draw, mut text, mut source) = (
        Draw(seed + 88172645463325252),
        String::new(),
        Source::detached(""),
    );
    for _ in 0..many {
        let start = draw.place(&text, 0, text.len());
        let most = if text.len() > 700 {
            text.len()
        } else {
            text.len().min(start + 9)
        };
        let end = draw.place(&text, start, most);
        let piece = PIECES[draw.below(PIECES.len())];
        text.replace_range(start..end, piece);
        let changed = if draw.below(4) == 0 {
            source.replace(&text)
        } else {
            source.edit(start..end, piece)
        };
        assert!(changed.end <= text.len());
        let fresh = Source::detached(text.as_str());
        assert_eq!(source.text(), text);
        assert!(source.root().spanless_eq(fresh.root()), "{text:?}");
        let parsed = parse(&text);
        assert!(source.root().spanless_eq(&parsed), "{text:?}");
        assert_eq!(said_below(source.root()), said_below(&parsed), "{text:?}");
    }
    many
}

/// What is said of a node and all below it, except for spans.
fn said_below(root: &SyntaxNode) -> Vec<Diagnostic> {
    let mut said = root.diagnostics_below();
    said.iter_mut().for_each(|it| it.span = Span::detached());
    said
}

#[test]
fn edits() {
    let many = edit_at_random(1, told("TRIAL_EDITS", 2000));
    println!("rust edits: {many} of {many} agree");
}

#[test]
fn threads() {
    let many = told("TRIAL_EDITS", 2000) / 20;
    let works: Vec<_> = (2..4)
        .map(|seed| std::thread::spawn(move || edit_at_random(seed, many)))
        .collect();
    let all: usize = works
        .into_iter()
        .map(|it| it.join().expect("a thread's edits agree"))
        .sum();
    let source = Source::detached("= Hi");
    std::thread::spawn(move || drop(source))
        .join()
        .expect("a source goes to another thread");
    println!("rust threads: {all} of {all} agree");
}

/// All nodes with their places, each before its children.
fn all_of<'a>(root: LinkedNode<'a>) -> Vec<LinkedNode<'a>> {
    let mut nodes = vec![root];
    let mut rows = vec![root.children()];
    while let Some(row) = rows.last_mut() {
        match row.next() {
            None => drop(rows.pop()),
            Some(node) => {
                nodes.push(node);
                rows.push(node.children());
            }
        }
    }
    nodes
}

/// Whether a node is a leaf that steps from leaf to leaf come to.
fn counts(node: &LinkedNode) -> bool {
    node.children().next().is_none() && !node.kind().is_trivia() && !node.kind().is_error()
}

#[test]
fn steps() {
    let source =
        Source::detached("= A *b* _c_\n#let x = (1, [d])\n- e\n  - f $x^2$ (*\n".repeat(3));
    let root = LinkedNode::new(source.root());
    let nodes = all_of(root);
    assert_eq!(nodes.len(), source.root().descendants());
    let leaves: Vec<_> = nodes.iter().filter(|it| counts(it)).collect();
    for pair in leaves.windows(2) {
        assert_eq!(pair[0].next_leaf().as_ref(), Some(pair[1]));
        assert_eq!(pair[1].prev_leaf().as_ref(), Some(pair[0]));
    }
    assert!(leaves[0].prev_leaf().is_none() && leaves[leaves.len() - 1].next_leaf().is_none());
    for node in &nodes {
        check_node(&source, node);
    }
    println!("rust steps: {0} of {0} agree", nodes.len());
}

/// Compares the steps of a node with its children.
fn check_node(source: &Source, node: &LinkedNode) {
    let children: Vec<_> = node.children().collect();
    let mut back: Vec<_> = node.children().rev().collect();
    back.reverse();
    assert_eq!(children, back);
    let told: Vec<_> = children
        .iter()
        .filter(|it| !it.kind().is_trivia())
        .collect();
    for (at, child) in children.iter().enumerate() {
        assert_eq!((child.parent(), child.index()), (Some(*node), at));
        let before = told.iter().rev().find(|it| it.index() < at).copied();
        let behind = told.iter().find(|it| it.index() > at).copied();
        assert_eq!(
            (child.prev_sibling().as_ref(), child.next_sibling().as_ref()),
            (before, behind)
        );
    }
    let below = all_of(*node);
    assert_eq!(node.leftmost_leaf(), below.iter().copied().find(counts));
    assert_eq!(
        node.rightmost_leaf(),
        below.iter().copied().rev().find(counts)
    );
    assert_eq!(source.find(node.span()).as_ref(), Some(node));
    let (_, number) = node.span().get().expect("nodes of a source have numbers");
    assert_eq!(source.range(number, None), Some(node.range()));
    assert_eq!(node.get().full_text(), &source.text()[node.range()]);
}

#[test]
fn leaves_at_bytes() {
    let text = "= A *b* _c_\n#let x = (1, [d])\n- é $x^2$";
    let source = Source::detached(text);
    let root = LinkedNode::new(source.root());
    let leaves: Vec<_> = all_of(root)
        .into_iter()
        .filter(|it| it.children().next().is_none() && !it.is_empty())
        .collect();
    for byte in 0..=text.len() + 1 {
        let after = leaves.iter().copied().find(|it| it.range().contains(&byte));
        let before = leaves
            .iter()
            .copied()
            .find(|it| it.offset() < byte && byte <= it.range().end);
        assert_eq!(root.leaf_at(byte, Side::After), after, "{byte}");
        if byte > 0 {
            assert_eq!(root.leaf_at(byte, Side::Before), before, "{byte}");
        }
    }
    println!("rust leaves: {0} of {0} agree", text.len() + 2);
}

#[test]
fn lines() {
    let text = "a\r\né💛b\n\u{2028}\u{b}c\rd\u{85}";
    let source = Source::detached(text);
    let (lines, mut places) = (source.lines(), 0);
    for byte in 0..=text.len() + 1 {
        let before = text.get(..byte).map(|it| it.encode_utf16().count());
        assert_eq!(lines.byte_to_utf16(byte), before, "{byte}");
        let Some(utf16) = before else { continue };
        let (line, column) = lines.byte_to_line_column(byte).expect("it is a place");
        assert_eq!(
            (lines.byte_to_line(byte), lines.byte_to_column(byte)),
            (Some(line), Some(column))
        );
        assert_eq!(
            (
                lines.utf16_to_byte(utf16),
                lines.line_column_to_byte(line, column)
            ),
            (Some(byte), Some(byte))
        );
        let range = lines.line_to_range(line).expect("it is a line");
        assert_eq!(text[range.start..byte].chars().count(), column);
        places += 1;
    }
    let starts: Vec<_> = (0..).map_while(|it| lines.line_to_byte(it)).collect();
    assert_eq!(starts, [0, 3, 11, 14, 15, 17, 20]);
    assert_eq!(
        (
            lines.len_lines(),
            lines.len_bytes(),
            lines.utf16_to_byte(99)
        ),
        (7, text.len(), None)
    );
    println!("rust lines: {places} of {places} agree");
}

#[test]
fn parts_of_trees() {
    let (code, math) = (parse_code("f(1)[a]"), parse_math("a/b"));
    assert_eq!(
        (code.kind(), math.kind()),
        (SyntaxKind::Code, SyntaxKind::Math)
    );
    let call = code.children().next().expect("the code has a call");
    let linked = LinkedNode::new(&call);
    assert_eq!(
        (linked.range(), linked.parent(), call.full_text()),
        (0..7, None, "f(1)[a]")
    );
    let args = call.children().next_back().expect("the call has arguments");
    assert_eq!(
        (args.kind(), LinkedNode::new(&args).range(), args.len()),
        (SyntaxKind::Args, 0..6, 6)
    );
    for (root, start) in [(parse_code("f(1"), 1), (parse_math("sin(x"), 3)] {
        let said = root.diagnostics_below();
        assert_eq!(said.len(), 1, "{root:?}");
        assert_eq!(
            (said[0].range.clone(), said[0].message.as_str()),
            (start..start + 1, "unclosed delimiter")
        );
    }
    let mut kinds: HashMap<SyntaxKind, usize> = HashMap::new();
    all_of(LinkedNode::new(&args))
        .iter()
        .for_each(|it| *kinds.entry(it.kind()).or_default() += 1);
    assert_eq!(kinds[&SyntaxKind::ContentBlock], 1);
    println!("rust parts: 6 of 6 agree");
}

#[test]
fn refusals() {
    let mut source = Source::detached("aé");
    let before: SyntaxNode = source.root().clone();
    for range in [2..3, 1..2, 0..9] {
        assert_eq!(source.try_edit(range, ""), Err(Refusal::BadRange));
    }
    // SAFETY: bytes of 0 are UTF-8. Nobody reads them, and the system gives no memory for them.
    let large = unsafe { String::from_utf8_unchecked(vec![0; u32::MAX as usize]) };
    assert_eq!(source.try_replace(&large), Err(Refusal::TooLarge));
    assert_eq!(source.try_edit(0..0, &large), Err(Refusal::TooLarge));
    assert!(source.root().spanless_eq(&before));
    assert_eq!(
        Source::try_new(source.id(), large).err(),
        Some(Refusal::TooLarge)
    );
    println!("rust refusals: 7 of 7 agree");
}

#[test]
fn chains() {
    let links = told("TRIAL_LINKS", 10_000);
    let chains = [("#{1", "+1", "}"), ("$1", "!", "$")];
    for (head, link, tail) in chains {
        let mut source = Source::detached(head.to_string() + &link.repeat(links) + tail);
        assert!(source.root().descendants() > links);
        let root = LinkedNode::new(source.root());
        assert!(root.leftmost_leaf().is_some() && root.rightmost_leaf().is_some());
        source.edit(head.len()..head.len(), " ");
        assert!(source.root().spanless_eq(&parse(source.text())));
    }
    println!("rust chains: {0} of {0} agree", chains.len());
}
