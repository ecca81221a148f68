//! Kinds and tags, in the order of their numbers. Made by bindings/tables: change bindings/abi.toml.

/// What a node of a tree is.
///
/// ```
/// use typst_syntax::{SyntaxKind, parse};
///
/// let heading = parse("= Hi").children().next().unwrap().kind();
/// assert_eq!((heading, heading.name()), (SyntaxKind::Heading, "heading"));
/// assert!(SyntaxKind::Space.is_trivia() && SyntaxKind::Let.is_keyword());
/// ```
#[derive(Debug, Clone, Copy, PartialEq, Eq, Hash)]
#[repr(u8)]
pub enum SyntaxKind {
    /// The end of the text, or of the part of it that may be read.
    End,
    /// Text that isn't syntax.
    Error,
    /// `#!` at the text's start, up to the line's end.
    Shebang,
    /// `// ..`
    LineComment,
    /// `/* .. */`
    BlockComment,
    /// A sequence of markup.
    Markup,
    /// Plain text.
    Text,
    /// Whitespace, with at most one line end in markup.
    Space,
    /// A backslash before whitespace or the end.
    Linebreak,
    /// Whitespace with two or more line ends.
    Parbreak,
    /// A backslash and what it stands for: `\#`, `\u{1F600}`.
    Escape,
    /// Characters that stand for another: `~`, `---`, `...`.
    Shorthand,
    /// `'` or `"` in markup.
    SmartQuote,
    /// `*..*`
    Strong,
    /// `_.._`
    Emph,
    /// Raw text with its delimiters.
    Raw,
    /// The language of a raw block.
    RawLang,
    /// The backticks on one side of a raw block.
    RawDelim,
    /// Whitespace of a raw block that isn't part of its content.
    RawTrimmed,
    /// An address in markup: `https://typst.org`.
    Link,
    /// `<name>`
    Label,
    /// A reference with its supplement: `@name[..]`.
    Ref,
    /// `@name`
    RefMarker,
    /// `= ..`
    Heading,
    /// The equals signs before a heading.
    HeadingMarker,
    /// `- ..`
    ListItem,
    /// The `-` before a list item.
    ListMarker,
    /// `+ ..` or `1. ..`
    EnumItem,
    /// The `+` or `1.` before an enum item.
    EnumMarker,
    /// `/ Term: ..`
    TermItem,
    /// The `/` before a term.
    TermMarker,
    /// `$..$`
    Equation,
    /// A sequence of math.
    Math,
    /// A character or a number in math.
    MathText,
    /// An identifier of more than one letter in math.
    MathIdent,
    /// `arrow.l` in math.
    MathFieldAccess,
    /// Signs that stand for a symbol in math: `->`, `!=`.
    MathShorthand,
    /// `&` in math.
    MathAlignPoint,
    /// A call in math: `vec(1, 2)`.
    MathCall,
    /// The arguments of a call in math.
    MathArgs,
    /// Math between matching delimiters.
    MathDelimited,
    /// A base with what is above and below it: `a_1^2`.
    MathAttach,
    /// `'''` in math.
    MathPrimes,
    /// `a/b` in math.
    MathFrac,
    /// A root sign and what it is of.
    MathRoot,
    /// `#`
    Hash,
    /// `{`
    LeftBrace,
    /// `}`
    RightBrace,
    /// `[`
    LeftBracket,
    /// `]`
    RightBracket,
    /// `(`
    LeftParen,
    /// `)`
    RightParen,
    /// `,`
    Comma,
    /// `;`
    Semicolon,
    /// `:`
    Colon,
    /// `*`
    Star,
    /// `_`
    Underscore,
    /// `$`
    Dollar,
    /// `+`
    Plus,
    /// `-`
    Minus,
    /// `/`
    Slash,
    /// `^`
    Hat,
    /// `.`
    Dot,
    /// `!`
    Bang,
    /// `=`
    Eq,
    /// `==`
    EqEq,
    /// `!=`
    ExclEq,
    /// `<`
    Lt,
    /// `<=`
    LtEq,
    /// `>`
    Gt,
    /// `>=`
    GtEq,
    /// `+=`
    PlusEq,
    /// `-=`
    HyphEq,
    /// `*=`
    StarEq,
    /// `/=`
    SlashEq,
    /// `..`
    Dots,
    /// `=>`
    Arrow,
    /// A root sign.
    Root,
    /// `not`
    Not,
    /// `and`
    And,
    /// `or`
    Or,
    /// `none`
    None,
    /// `auto`
    Auto,
    /// `let`
    Let,
    /// `set`
    Set,
    /// `show`
    Show,
    /// `context`
    Context,
    /// `if`
    If,
    /// `else`
    Else,
    /// `for`
    For,
    /// `in`
    In,
    /// `while`
    While,
    /// `break`
    Break,
    /// `continue`
    Continue,
    /// `return`
    Return,
    /// `import`
    Import,
    /// `include`
    Include,
    /// `as`
    As,
    /// A sequence of code.
    Code,
    /// An identifier.
    Ident,
    /// `true` or `false`
    Bool,
    /// `120`, `0xff`
    Int,
    /// `1.2`, `1e3`
    Float,
    /// A number with a unit: `12pt`, `50%`.
    Numeric,
    /// `".."`
    Str,
    /// `{ .. }`
    CodeBlock,
    /// `[..]`
    ContentBlock,
    /// One expression or pattern in parens.
    Parenthesized,
    /// `(1, 2)`
    Array,
    /// `(a: 1, b: 2)`
    Dict,
    /// `a: 1`
    Named,
    /// `"a": 1`
    Keyed,
    /// `-x`, `not x`
    Unary,
    /// `a + b`
    Binary,
    /// `a.b`
    FieldAccess,
    /// `f(x)`
    FuncCall,
    /// The arguments of a call: `(x, y)[..]`.
    Args,
    /// `..x`
    Spread,
    /// `(x, y) => z`
    Closure,
    /// The parameters of a closure.
    Params,
    /// `let x = 1`
    LetBinding,
    /// `set text(..)`
    SetRule,
    /// `show heading: ..`
    ShowRule,
    /// `context ..`
    Contextual,
    /// `if x { .. } else { .. }`
    Conditional,
    /// `while x { .. }`
    WhileLoop,
    /// `for x in y { .. }`
    ForLoop,
    /// `import "a.typ": b`
    ModuleImport,
    /// The items that an import names.
    ImportItems,
    /// One item that is imported, with its path: `a.b`.
    ImportItemPath,
    /// `a as b`
    RenamedImportItem,
    /// `include "a.typ"`
    ModuleInclude,
    /// A `break` in code.
    LoopBreak,
    /// A `continue` in code.
    LoopContinue,
    /// `return`, `return x`
    FuncReturn,
    /// A pattern that takes several values apart: `(x, _, ..y)`.
    Destructuring,
    /// `(x, y) = (1, 2)`
    DestructAssignment,
}

/// All kinds, each at its number.
pub(crate) const KINDS: [SyntaxKind; 137] = [
    SyntaxKind::End,
    SyntaxKind::Error,
    SyntaxKind::Shebang,
    SyntaxKind::LineComment,
    SyntaxKind::BlockComment,
    SyntaxKind::Markup,
    SyntaxKind::Text,
    SyntaxKind::Space,
    SyntaxKind::Linebreak,
    SyntaxKind::Parbreak,
    SyntaxKind::Escape,
    SyntaxKind::Shorthand,
    SyntaxKind::SmartQuote,
    SyntaxKind::Strong,
    SyntaxKind::Emph,
    SyntaxKind::Raw,
    SyntaxKind::RawLang,
    SyntaxKind::RawDelim,
    SyntaxKind::RawTrimmed,
    SyntaxKind::Link,
    SyntaxKind::Label,
    SyntaxKind::Ref,
    SyntaxKind::RefMarker,
    SyntaxKind::Heading,
    SyntaxKind::HeadingMarker,
    SyntaxKind::ListItem,
    SyntaxKind::ListMarker,
    SyntaxKind::EnumItem,
    SyntaxKind::EnumMarker,
    SyntaxKind::TermItem,
    SyntaxKind::TermMarker,
    SyntaxKind::Equation,
    SyntaxKind::Math,
    SyntaxKind::MathText,
    SyntaxKind::MathIdent,
    SyntaxKind::MathFieldAccess,
    SyntaxKind::MathShorthand,
    SyntaxKind::MathAlignPoint,
    SyntaxKind::MathCall,
    SyntaxKind::MathArgs,
    SyntaxKind::MathDelimited,
    SyntaxKind::MathAttach,
    SyntaxKind::MathPrimes,
    SyntaxKind::MathFrac,
    SyntaxKind::MathRoot,
    SyntaxKind::Hash,
    SyntaxKind::LeftBrace,
    SyntaxKind::RightBrace,
    SyntaxKind::LeftBracket,
    SyntaxKind::RightBracket,
    SyntaxKind::LeftParen,
    SyntaxKind::RightParen,
    SyntaxKind::Comma,
    SyntaxKind::Semicolon,
    SyntaxKind::Colon,
    SyntaxKind::Star,
    SyntaxKind::Underscore,
    SyntaxKind::Dollar,
    SyntaxKind::Plus,
    SyntaxKind::Minus,
    SyntaxKind::Slash,
    SyntaxKind::Hat,
    SyntaxKind::Dot,
    SyntaxKind::Bang,
    SyntaxKind::Eq,
    SyntaxKind::EqEq,
    SyntaxKind::ExclEq,
    SyntaxKind::Lt,
    SyntaxKind::LtEq,
    SyntaxKind::Gt,
    SyntaxKind::GtEq,
    SyntaxKind::PlusEq,
    SyntaxKind::HyphEq,
    SyntaxKind::StarEq,
    SyntaxKind::SlashEq,
    SyntaxKind::Dots,
    SyntaxKind::Arrow,
    SyntaxKind::Root,
    SyntaxKind::Not,
    SyntaxKind::And,
    SyntaxKind::Or,
    SyntaxKind::None,
    SyntaxKind::Auto,
    SyntaxKind::Let,
    SyntaxKind::Set,
    SyntaxKind::Show,
    SyntaxKind::Context,
    SyntaxKind::If,
    SyntaxKind::Else,
    SyntaxKind::For,
    SyntaxKind::In,
    SyntaxKind::While,
    SyntaxKind::Break,
    SyntaxKind::Continue,
    SyntaxKind::Return,
    SyntaxKind::Import,
    SyntaxKind::Include,
    SyntaxKind::As,
    SyntaxKind::Code,
    SyntaxKind::Ident,
    SyntaxKind::Bool,
    SyntaxKind::Int,
    SyntaxKind::Float,
    SyntaxKind::Numeric,
    SyntaxKind::Str,
    SyntaxKind::CodeBlock,
    SyntaxKind::ContentBlock,
    SyntaxKind::Parenthesized,
    SyntaxKind::Array,
    SyntaxKind::Dict,
    SyntaxKind::Named,
    SyntaxKind::Keyed,
    SyntaxKind::Unary,
    SyntaxKind::Binary,
    SyntaxKind::FieldAccess,
    SyntaxKind::FuncCall,
    SyntaxKind::Args,
    SyntaxKind::Spread,
    SyntaxKind::Closure,
    SyntaxKind::Params,
    SyntaxKind::LetBinding,
    SyntaxKind::SetRule,
    SyntaxKind::ShowRule,
    SyntaxKind::Contextual,
    SyntaxKind::Conditional,
    SyntaxKind::WhileLoop,
    SyntaxKind::ForLoop,
    SyntaxKind::ModuleImport,
    SyntaxKind::ImportItems,
    SyntaxKind::ImportItemPath,
    SyntaxKind::RenamedImportItem,
    SyntaxKind::ModuleInclude,
    SyntaxKind::LoopBreak,
    SyntaxKind::LoopContinue,
    SyntaxKind::FuncReturn,
    SyntaxKind::Destructuring,
    SyntaxKind::DestructAssignment,
];

impl SyntaxKind {
    /// The kind's name in messages.
    pub fn name(self) -> &'static str {
        match self {
            SyntaxKind::End => "end of tokens",
            SyntaxKind::Error => "syntax error",
            SyntaxKind::Shebang => "shebang",
            SyntaxKind::LineComment => "line comment",
            SyntaxKind::BlockComment => "block comment",
            SyntaxKind::Markup => "markup",
            SyntaxKind::Text => "text",
            SyntaxKind::Space => "space",
            SyntaxKind::Linebreak => "line break",
            SyntaxKind::Parbreak => "paragraph break",
            SyntaxKind::Escape => "escape sequence",
            SyntaxKind::Shorthand => "shorthand",
            SyntaxKind::SmartQuote => "smart quote",
            SyntaxKind::Strong => "strong content",
            SyntaxKind::Emph => "emphasized content",
            SyntaxKind::Raw => "raw block",
            SyntaxKind::RawLang => "raw language tag",
            SyntaxKind::RawDelim => "raw delimiter",
            SyntaxKind::RawTrimmed => "raw trimmed",
            SyntaxKind::Link => "link",
            SyntaxKind::Label => "label",
            SyntaxKind::Ref => "reference",
            SyntaxKind::RefMarker => "reference marker",
            SyntaxKind::Heading => "heading",
            SyntaxKind::HeadingMarker => "heading marker",
            SyntaxKind::ListItem => "list item",
            SyntaxKind::ListMarker => "list marker",
            SyntaxKind::EnumItem => "enum item",
            SyntaxKind::EnumMarker => "enum marker",
            SyntaxKind::TermItem => "term list item",
            SyntaxKind::TermMarker => "term marker",
            SyntaxKind::Equation => "equation",
            SyntaxKind::Math => "math",
            SyntaxKind::MathText => "math text",
            SyntaxKind::MathIdent => "math identifier",
            SyntaxKind::MathFieldAccess => "math field access",
            SyntaxKind::MathShorthand => "math shorthand",
            SyntaxKind::MathAlignPoint => "math alignment point",
            SyntaxKind::MathCall => "math call",
            SyntaxKind::MathArgs => "math args",
            SyntaxKind::MathDelimited => "delimited math",
            SyntaxKind::MathAttach => "math attachments",
            SyntaxKind::MathPrimes => "math primes",
            SyntaxKind::MathFrac => "math fraction",
            SyntaxKind::MathRoot => "math root",
            SyntaxKind::Hash => "hash",
            SyntaxKind::LeftBrace => "opening brace",
            SyntaxKind::RightBrace => "closing brace",
            SyntaxKind::LeftBracket => "opening bracket",
            SyntaxKind::RightBracket => "closing bracket",
            SyntaxKind::LeftParen => "opening paren",
            SyntaxKind::RightParen => "closing paren",
            SyntaxKind::Comma => "comma",
            SyntaxKind::Semicolon => "semicolon",
            SyntaxKind::Colon => "colon",
            SyntaxKind::Star => "star",
            SyntaxKind::Underscore => "underscore",
            SyntaxKind::Dollar => "dollar sign",
            SyntaxKind::Plus => "plus",
            SyntaxKind::Minus => "minus",
            SyntaxKind::Slash => "slash",
            SyntaxKind::Hat => "hat",
            SyntaxKind::Dot => "dot",
            SyntaxKind::Bang => "exclamation mark",
            SyntaxKind::Eq => "equals sign",
            SyntaxKind::EqEq => "equality operator",
            SyntaxKind::ExclEq => "inequality operator",
            SyntaxKind::Lt => "less-than operator",
            SyntaxKind::LtEq => "less-than or equal operator",
            SyntaxKind::Gt => "greater-than operator",
            SyntaxKind::GtEq => "greater-than or equal operator",
            SyntaxKind::PlusEq => "add-assign operator",
            SyntaxKind::HyphEq => "subtract-assign operator",
            SyntaxKind::StarEq => "multiply-assign operator",
            SyntaxKind::SlashEq => "divide-assign operator",
            SyntaxKind::Dots => "dots",
            SyntaxKind::Arrow => "arrow",
            SyntaxKind::Root => "root",
            SyntaxKind::Not => "operator `not`",
            SyntaxKind::And => "operator `and`",
            SyntaxKind::Or => "operator `or`",
            SyntaxKind::None => "`none`",
            SyntaxKind::Auto => "`auto`",
            SyntaxKind::Let => "keyword `let`",
            SyntaxKind::Set => "keyword `set`",
            SyntaxKind::Show => "keyword `show`",
            SyntaxKind::Context => "keyword `context`",
            SyntaxKind::If => "keyword `if`",
            SyntaxKind::Else => "keyword `else`",
            SyntaxKind::For => "keyword `for`",
            SyntaxKind::In => "keyword `in`",
            SyntaxKind::While => "keyword `while`",
            SyntaxKind::Break => "keyword `break`",
            SyntaxKind::Continue => "keyword `continue`",
            SyntaxKind::Return => "keyword `return`",
            SyntaxKind::Import => "keyword `import`",
            SyntaxKind::Include => "keyword `include`",
            SyntaxKind::As => "keyword `as`",
            SyntaxKind::Code => "code",
            SyntaxKind::Ident => "identifier",
            SyntaxKind::Bool => "boolean",
            SyntaxKind::Int => "integer",
            SyntaxKind::Float => "float",
            SyntaxKind::Numeric => "numeric value",
            SyntaxKind::Str => "string",
            SyntaxKind::CodeBlock => "code block",
            SyntaxKind::ContentBlock => "content block",
            SyntaxKind::Parenthesized => "group",
            SyntaxKind::Array => "array",
            SyntaxKind::Dict => "dictionary",
            SyntaxKind::Named => "named pair",
            SyntaxKind::Keyed => "keyed pair",
            SyntaxKind::Unary => "unary expression",
            SyntaxKind::Binary => "binary expression",
            SyntaxKind::FieldAccess => "field access",
            SyntaxKind::FuncCall => "function call",
            SyntaxKind::Args => "call arguments",
            SyntaxKind::Spread => "spread",
            SyntaxKind::Closure => "closure",
            SyntaxKind::Params => "closure parameters",
            SyntaxKind::LetBinding => "`let` expression",
            SyntaxKind::SetRule => "`set` expression",
            SyntaxKind::ShowRule => "`show` expression",
            SyntaxKind::Contextual => "`context` expression",
            SyntaxKind::Conditional => "`if` expression",
            SyntaxKind::WhileLoop => "while-loop expression",
            SyntaxKind::ForLoop => "for-loop expression",
            SyntaxKind::ModuleImport => "`import` expression",
            SyntaxKind::ImportItems => "import items",
            SyntaxKind::ImportItemPath => "imported item path",
            SyntaxKind::RenamedImportItem => "renamed import item",
            SyntaxKind::ModuleInclude => "`include` expression",
            SyntaxKind::LoopBreak => "`break` expression",
            SyntaxKind::LoopContinue => "`continue` expression",
            SyntaxKind::FuncReturn => "`return` expression",
            SyntaxKind::Destructuring => "destructuring pattern",
            SyntaxKind::DestructAssignment => "destructuring assignment expression",
        }
    }

    /// Whether the kind is trivia: a space, a paragraph break or a comment.
    pub fn is_trivia(self) -> bool {
        matches!(
            self,
            SyntaxKind::Space
                | SyntaxKind::Parbreak
                | SyntaxKind::LineComment
                | SyntaxKind::BlockComment
        )
    }

    /// Whether the kind is `Error`.
    pub fn is_error(self) -> bool {
        matches!(
            self,
            SyntaxKind::Error
        )
    }

    /// Whether the kind is a keyword of code.
    pub fn is_keyword(self) -> bool {
        matches!(
            self,
            SyntaxKind::Not
                | SyntaxKind::And
                | SyntaxKind::Or
                | SyntaxKind::None
                | SyntaxKind::Auto
                | SyntaxKind::Let
                | SyntaxKind::Set
                | SyntaxKind::Show
                | SyntaxKind::Context
                | SyntaxKind::If
                | SyntaxKind::Else
                | SyntaxKind::For
                | SyntaxKind::In
                | SyntaxKind::While
                | SyntaxKind::Break
                | SyntaxKind::Continue
                | SyntaxKind::Return
                | SyntaxKind::Import
                | SyntaxKind::Include
                | SyntaxKind::As
        )
    }

    /// Whether the kind is a brace, a bracket or a paren.
    pub fn is_grouping(self) -> bool {
        matches!(
            self,
            SyntaxKind::LeftBrace
                | SyntaxKind::RightBrace
                | SyntaxKind::LeftBracket
                | SyntaxKind::RightBracket
                | SyntaxKind::LeftParen
                | SyntaxKind::RightParen
        )
    }

    /// Whether the kind ends an expression or a list in code.
    pub fn is_terminator(self) -> bool {
        matches!(
            self,
            SyntaxKind::End
                | SyntaxKind::Semicolon
                | SyntaxKind::RightBrace
                | SyntaxKind::RightParen
                | SyntaxKind::RightBracket
        )
    }

    /// Whether the kind is a block of code or of content.
    pub fn is_block(self) -> bool {
        matches!(
            self,
            SyntaxKind::CodeBlock
                | SyntaxKind::ContentBlock
        )
    }

    /// Whether an expression of this kind may follow a hash in markup and math.
    pub fn is_hash_expr(self) -> bool {
        matches!(
            self,
            SyntaxKind::Ident
                | SyntaxKind::None
                | SyntaxKind::Auto
                | SyntaxKind::Bool
                | SyntaxKind::Int
                | SyntaxKind::Float
                | SyntaxKind::Numeric
                | SyntaxKind::Str
                | SyntaxKind::CodeBlock
                | SyntaxKind::ContentBlock
                | SyntaxKind::Array
                | SyntaxKind::Dict
                | SyntaxKind::Parenthesized
                | SyntaxKind::FieldAccess
                | SyntaxKind::FuncCall
                | SyntaxKind::LetBinding
                | SyntaxKind::SetRule
                | SyntaxKind::ShowRule
                | SyntaxKind::Contextual
                | SyntaxKind::Conditional
                | SyntaxKind::WhileLoop
                | SyntaxKind::ForLoop
                | SyntaxKind::ModuleImport
                | SyntaxKind::ModuleInclude
                | SyntaxKind::LoopBreak
                | SyntaxKind::LoopContinue
                | SyntaxKind::FuncReturn
        )
    }
}

/// How a node is to be shown.
#[derive(Debug, Clone, Copy, PartialEq, Eq, Hash)]
#[repr(u8)]
pub enum Tag {
    /// A comment, also a shebang.
    Comment,
    /// Brackets, commas, colons, semicolons and dots of code.
    Punctuation,
    /// An escape sequence, a shorthand or a line break.
    Escape,
    /// Strong markup.
    Strong,
    /// Emphasized markup.
    Emph,
    /// An address.
    Link,
    /// Raw text.
    Raw,
    /// A label.
    Label,
    /// A reference.
    Ref,
    /// A heading.
    Heading,
    /// What begins an item of a list, an enumeration or a term list.
    ListMarker,
    /// The term of an item of a term list.
    ListTerm,
    /// The dollar signs of an equation.
    MathDelimiter,
    /// An operator of an equation, as `^`.
    MathOperator,
    /// Parentheses that only group in an equation.
    MathGroupingParens,
    /// A keyword, `true` or `false`.
    Keyword,
    /// An operator of code.
    Operator,
    /// A number, also with a unit.
    Number,
    /// A string.
    String,
    /// The name of a function where it is called, defined or shown.
    Function,
    /// A name of code in markup or in an equation, with its hash.
    Interpolated,
    /// Text that is no syntax.
    Error,
}

impl Tag {
    /// All tags.
    pub const LIST: &'static [Tag] = &[
        Tag::Comment,
        Tag::Punctuation,
        Tag::Escape,
        Tag::Strong,
        Tag::Emph,
        Tag::Link,
        Tag::Raw,
        Tag::Label,
        Tag::Ref,
        Tag::Heading,
        Tag::ListMarker,
        Tag::ListTerm,
        Tag::MathDelimiter,
        Tag::MathOperator,
        Tag::MathGroupingParens,
        Tag::Keyword,
        Tag::Operator,
        Tag::Number,
        Tag::String,
        Tag::Function,
        Tag::Interpolated,
        Tag::Error,
    ];

    /// The TextMate scope that editors know the tag by.
    pub fn tm_scope(self) -> &'static str {
        match self {
            Tag::Comment => "comment.typst",
            Tag::Punctuation => "punctuation.typst",
            Tag::Escape => "constant.character.escape.typst",
            Tag::Strong => "markup.bold.typst",
            Tag::Emph => "markup.italic.typst",
            Tag::Link => "markup.underline.link.typst",
            Tag::Raw => "markup.raw.typst",
            Tag::Label => "entity.name.label.typst",
            Tag::Ref => "markup.other.reference.typst",
            Tag::Heading => "markup.heading.typst",
            Tag::ListMarker => "punctuation.definition.list.typst",
            Tag::ListTerm => "markup.list.term.typst",
            Tag::MathDelimiter => "punctuation.definition.math.typst",
            Tag::MathOperator => "keyword.operator.math.typst",
            Tag::MathGroupingParens => "punctuation.math.typst",
            Tag::Keyword => "keyword.typst",
            Tag::Operator => "keyword.operator.typst",
            Tag::Number => "constant.numeric.typst",
            Tag::String => "string.quoted.double.typst",
            Tag::Function => "entity.name.function.typst",
            Tag::Interpolated => "meta.interpolation.typst",
            Tag::Error => "invalid.typst",
        }
    }

    /// The class of the tag in HTML.
    pub fn css_class(self) -> &'static str {
        match self {
            Tag::Comment => "typ-comment",
            Tag::Punctuation => "typ-punct",
            Tag::Escape => "typ-escape",
            Tag::Strong => "typ-strong",
            Tag::Emph => "typ-emph",
            Tag::Link => "typ-link",
            Tag::Raw => "typ-raw",
            Tag::Label => "typ-label",
            Tag::Ref => "typ-ref",
            Tag::Heading => "typ-heading",
            Tag::ListMarker => "typ-marker",
            Tag::ListTerm => "typ-term",
            Tag::MathDelimiter => "typ-math-delim",
            Tag::MathOperator => "typ-math-op",
            Tag::MathGroupingParens => "typ-math-group",
            Tag::Keyword => "typ-key",
            Tag::Operator => "typ-op",
            Tag::Number => "typ-num",
            Tag::String => "typ-str",
            Tag::Function => "typ-func",
            Tag::Interpolated => "typ-pol",
            Tag::Error => "typ-error",
        }
    }
}
