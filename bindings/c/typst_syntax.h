/* The parser layer of Typst, as programs in C call it. Made by bindings/tables: change bindings/abi.toml.
 *
 * Texts are UTF-8, a pointer and a length, with no NUL at the end; positions are bytes. What a call reports
 * goes into arrays of the caller's: as many elements as fit, in order, and the count of all. No pointer may be
 * NULL, also where its length is 0, and arrays of one call don't overlap. A call that is refused answers
 * another code than TYPST_OK, and no source has changed; an array may hold a part of what was asked for.
 *
 * A source belongs to one call at a time. Different sources may be used by different threads.
 */
#ifndef TYPST_SYNTAX_H
#define TYPST_SYNTAX_H

#include <stddef.h>
#include <stdint.h>

#ifdef __cplusplus
extern "C" {
#endif

#define TYPST_ABI_VERSION 1u

/* What calls answer. */
enum {
    /* The call was made. */
    TYPST_OK = 0,
    /* A request for memory was refused. */
    TYPST_NO_MEMORY = 1,
    /* A text isn't UTF-8. */
    TYPST_NOT_UTF8 = 2,
    /* A range isn't one of the text, or an end of it lies within a character. */
    TYPST_BAD_RANGE = 3,
    /* An argument is none of those that there are. */
    TYPST_BAD_ARGUMENT = 4,
    /* There are fewer span numbers than nodes. */
    TYPST_SPAN_NUMBERS = 5,
    /* The text, or the tree, is too large for records. */
    TYPST_TOO_LARGE = 6
};

/* What a text is read as. */
enum {
    /* A whole file. */
    TYPST_MARKUP = 0,
    /* Code, as after a hash. */
    TYPST_CODE = 1,
    /* The inside of a formula. */
    TYPST_MATH = 2
};

/* What `flags` of a node is the sum of. */
enum {
    /* It can have children; a node without this bit is a leaf. */
    TYPST_IS_INNER = 1,
    /* It is text that is no syntax. */
    TYPST_IS_ERROR = 2,
    /* Remarks are on it. */
    TYPST_HAS_REMARKS = 4
};

/* How grave a remark is. */
enum {
    /* An error. */
    TYPST_ERROR = 1,
    /* A warning. */
    TYPST_WARNING = 2,
    /* A hint on the error or warning before it. */
    TYPST_HINT = 3
};

/* What a column counts. */
enum {
    /* Characters. */
    TYPST_CHARACTERS = 0,
    /* UTF-16 units. */
    TYPST_UTF16 = 1,
    /* Bytes. */
    TYPST_BYTES = 2
};

/* What a node is. */
enum {
    /* The end of the text, or of the part of it that may be read. */
    TYPST_KIND_END = 0,
    /* Text that isn't syntax. */
    TYPST_KIND_ERROR = 1,
    /* `#!` at the text's start, up to the line's end. */
    TYPST_KIND_SHEBANG = 2,
    /* `// ..` */
    TYPST_KIND_LINE_COMMENT = 3,
    /* A slash and a star, up to a star and a slash. */
    TYPST_KIND_BLOCK_COMMENT = 4,
    /* A sequence of markup. */
    TYPST_KIND_MARKUP = 5,
    /* Plain text. */
    TYPST_KIND_TEXT = 6,
    /* Whitespace, with at most one line end in markup. */
    TYPST_KIND_SPACE = 7,
    /* A backslash before whitespace or the end. */
    TYPST_KIND_LINEBREAK = 8,
    /* Whitespace with two or more line ends. */
    TYPST_KIND_PARBREAK = 9,
    /* A backslash and what it stands for: `\#`, `\u{1F600}`. */
    TYPST_KIND_ESCAPE = 10,
    /* Characters that stand for another: `~`, `---`, `...`. */
    TYPST_KIND_SHORTHAND = 11,
    /* `'` or `"` in markup. */
    TYPST_KIND_SMART_QUOTE = 12,
    /* `*..*` */
    TYPST_KIND_STRONG = 13,
    /* `_.._` */
    TYPST_KIND_EMPH = 14,
    /* Raw text with its delimiters. */
    TYPST_KIND_RAW = 15,
    /* The language of a raw block. */
    TYPST_KIND_RAW_LANG = 16,
    /* The backticks on one side of a raw block. */
    TYPST_KIND_RAW_DELIM = 17,
    /* Whitespace of a raw block that isn't part of its content. */
    TYPST_KIND_RAW_TRIMMED = 18,
    /* An address in markup: `https://typst.org`. */
    TYPST_KIND_LINK = 19,
    /* `<name>` */
    TYPST_KIND_LABEL = 20,
    /* A reference with its supplement: `@name[..]`. */
    TYPST_KIND_REF = 21,
    /* `@name` */
    TYPST_KIND_REF_MARKER = 22,
    /* `= ..` */
    TYPST_KIND_HEADING = 23,
    /* The equals signs before a heading. */
    TYPST_KIND_HEADING_MARKER = 24,
    /* `- ..` */
    TYPST_KIND_LIST_ITEM = 25,
    /* The `-` before a list item. */
    TYPST_KIND_LIST_MARKER = 26,
    /* `+ ..` or `1. ..` */
    TYPST_KIND_ENUM_ITEM = 27,
    /* The `+` or `1.` before an enum item. */
    TYPST_KIND_ENUM_MARKER = 28,
    /* `/ Term: ..` */
    TYPST_KIND_TERM_ITEM = 29,
    /* The `/` before a term. */
    TYPST_KIND_TERM_MARKER = 30,
    /* `$..$` */
    TYPST_KIND_EQUATION = 31,
    /* A sequence of math. */
    TYPST_KIND_MATH = 32,
    /* A character or a number in math. */
    TYPST_KIND_MATH_TEXT = 33,
    /* An identifier of more than one letter in math. */
    TYPST_KIND_MATH_IDENT = 34,
    /* `arrow.l` in math. */
    TYPST_KIND_MATH_FIELD_ACCESS = 35,
    /* Signs that stand for a symbol in math: `->`, `!=`. */
    TYPST_KIND_MATH_SHORTHAND = 36,
    /* `&` in math. */
    TYPST_KIND_MATH_ALIGN_POINT = 37,
    /* A call in math: `vec(1, 2)`. */
    TYPST_KIND_MATH_CALL = 38,
    /* The arguments of a call in math. */
    TYPST_KIND_MATH_ARGS = 39,
    /* Math between matching delimiters. */
    TYPST_KIND_MATH_DELIMITED = 40,
    /* A base with what is above and below it: `a_1^2`. */
    TYPST_KIND_MATH_ATTACH = 41,
    /* `'''` in math. */
    TYPST_KIND_MATH_PRIMES = 42,
    /* `a/b` in math. */
    TYPST_KIND_MATH_FRAC = 43,
    /* A root sign and what it is of. */
    TYPST_KIND_MATH_ROOT = 44,
    /* `#` */
    TYPST_KIND_HASH = 45,
    /* `{` */
    TYPST_KIND_LEFT_BRACE = 46,
    /* `}` */
    TYPST_KIND_RIGHT_BRACE = 47,
    /* `[` */
    TYPST_KIND_LEFT_BRACKET = 48,
    /* `]` */
    TYPST_KIND_RIGHT_BRACKET = 49,
    /* `(` */
    TYPST_KIND_LEFT_PAREN = 50,
    /* `)` */
    TYPST_KIND_RIGHT_PAREN = 51,
    /* `,` */
    TYPST_KIND_COMMA = 52,
    /* `;` */
    TYPST_KIND_SEMICOLON = 53,
    /* `:` */
    TYPST_KIND_COLON = 54,
    /* `*` */
    TYPST_KIND_STAR = 55,
    /* `_` */
    TYPST_KIND_UNDERSCORE = 56,
    /* `$` */
    TYPST_KIND_DOLLAR = 57,
    /* `+` */
    TYPST_KIND_PLUS = 58,
    /* `-` */
    TYPST_KIND_MINUS = 59,
    /* `/` */
    TYPST_KIND_SLASH = 60,
    /* `^` */
    TYPST_KIND_HAT = 61,
    /* `.` */
    TYPST_KIND_DOT = 62,
    /* `!` */
    TYPST_KIND_BANG = 63,
    /* `=` */
    TYPST_KIND_EQ = 64,
    /* `==` */
    TYPST_KIND_EQ_EQ = 65,
    /* `!=` */
    TYPST_KIND_EXCL_EQ = 66,
    /* `<` */
    TYPST_KIND_LT = 67,
    /* `<=` */
    TYPST_KIND_LT_EQ = 68,
    /* `>` */
    TYPST_KIND_GT = 69,
    /* `>=` */
    TYPST_KIND_GT_EQ = 70,
    /* `+=` */
    TYPST_KIND_PLUS_EQ = 71,
    /* `-=` */
    TYPST_KIND_HYPH_EQ = 72,
    /* `*=` */
    TYPST_KIND_STAR_EQ = 73,
    /* `/=` */
    TYPST_KIND_SLASH_EQ = 74,
    /* `..` */
    TYPST_KIND_DOTS = 75,
    /* `=>` */
    TYPST_KIND_ARROW = 76,
    /* A root sign. */
    TYPST_KIND_ROOT = 77,
    /* `not` */
    TYPST_KIND_NOT = 78,
    /* `and` */
    TYPST_KIND_AND = 79,
    /* `or` */
    TYPST_KIND_OR = 80,
    /* `none` */
    TYPST_KIND_NONE = 81,
    /* `auto` */
    TYPST_KIND_AUTO = 82,
    /* `let` */
    TYPST_KIND_LET = 83,
    /* `set` */
    TYPST_KIND_SET = 84,
    /* `show` */
    TYPST_KIND_SHOW = 85,
    /* `context` */
    TYPST_KIND_CONTEXT = 86,
    /* `if` */
    TYPST_KIND_IF = 87,
    /* `else` */
    TYPST_KIND_ELSE = 88,
    /* `for` */
    TYPST_KIND_FOR = 89,
    /* `in` */
    TYPST_KIND_IN = 90,
    /* `while` */
    TYPST_KIND_WHILE = 91,
    /* `break` */
    TYPST_KIND_BREAK = 92,
    /* `continue` */
    TYPST_KIND_CONTINUE = 93,
    /* `return` */
    TYPST_KIND_RETURN = 94,
    /* `import` */
    TYPST_KIND_IMPORT = 95,
    /* `include` */
    TYPST_KIND_INCLUDE = 96,
    /* `as` */
    TYPST_KIND_AS = 97,
    /* A sequence of code. */
    TYPST_KIND_CODE = 98,
    /* An identifier. */
    TYPST_KIND_IDENT = 99,
    /* `true` or `false` */
    TYPST_KIND_BOOL = 100,
    /* `120`, `0xff` */
    TYPST_KIND_INT = 101,
    /* `1.2`, `1e3` */
    TYPST_KIND_FLOAT = 102,
    /* A number with a unit: `12pt`, `50%`. */
    TYPST_KIND_NUMERIC = 103,
    /* `".."` */
    TYPST_KIND_STR = 104,
    /* `{ .. }` */
    TYPST_KIND_CODE_BLOCK = 105,
    /* `[..]` */
    TYPST_KIND_CONTENT_BLOCK = 106,
    /* One expression or pattern in parens. */
    TYPST_KIND_PARENTHESIZED = 107,
    /* `(1, 2)` */
    TYPST_KIND_ARRAY = 108,
    /* `(a: 1, b: 2)` */
    TYPST_KIND_DICT = 109,
    /* `a: 1` */
    TYPST_KIND_NAMED = 110,
    /* `"a": 1` */
    TYPST_KIND_KEYED = 111,
    /* `-x`, `not x` */
    TYPST_KIND_UNARY = 112,
    /* `a + b` */
    TYPST_KIND_BINARY = 113,
    /* `a.b` */
    TYPST_KIND_FIELD_ACCESS = 114,
    /* `f(x)` */
    TYPST_KIND_FUNC_CALL = 115,
    /* The arguments of a call: `(x, y)[..]`. */
    TYPST_KIND_ARGS = 116,
    /* `..x` */
    TYPST_KIND_SPREAD = 117,
    /* `(x, y) => z` */
    TYPST_KIND_CLOSURE = 118,
    /* The parameters of a closure. */
    TYPST_KIND_PARAMS = 119,
    /* `let x = 1` */
    TYPST_KIND_LET_BINDING = 120,
    /* `set text(..)` */
    TYPST_KIND_SET_RULE = 121,
    /* `show heading: ..` */
    TYPST_KIND_SHOW_RULE = 122,
    /* `context ..` */
    TYPST_KIND_CONTEXTUAL = 123,
    /* `if x { .. } else { .. }` */
    TYPST_KIND_CONDITIONAL = 124,
    /* `while x { .. }` */
    TYPST_KIND_WHILE_LOOP = 125,
    /* `for x in y { .. }` */
    TYPST_KIND_FOR_LOOP = 126,
    /* `import "a.typ": b` */
    TYPST_KIND_MODULE_IMPORT = 127,
    /* The items that an import names. */
    TYPST_KIND_IMPORT_ITEMS = 128,
    /* One item that is imported, with its path: `a.b`. */
    TYPST_KIND_IMPORT_ITEM_PATH = 129,
    /* `a as b` */
    TYPST_KIND_RENAMED_IMPORT_ITEM = 130,
    /* `include "a.typ"` */
    TYPST_KIND_MODULE_INCLUDE = 131,
    /* A `break` in code. */
    TYPST_KIND_LOOP_BREAK = 132,
    /* A `continue` in code. */
    TYPST_KIND_LOOP_CONTINUE = 133,
    /* `return`, `return x` */
    TYPST_KIND_FUNC_RETURN = 134,
    /* A pattern that takes several values apart: `(x, _, ..y)`. */
    TYPST_KIND_DESTRUCTURING = 135,
    /* `(x, y) = (1, 2)` */
    TYPST_KIND_DESTRUCT_ASSIGNMENT = 136
};

/* How a node is to be shown; 0 is for none of these. */
enum {
    /* A comment, also a shebang. */
    TYPST_TAG_COMMENT = 1,
    /* Brackets, commas, colons, semicolons and dots of code. */
    TYPST_TAG_PUNCTUATION = 2,
    /* An escape sequence, a shorthand or a line break. */
    TYPST_TAG_ESCAPE = 3,
    /* Strong markup. */
    TYPST_TAG_STRONG = 4,
    /* Emphasized markup. */
    TYPST_TAG_EMPH = 5,
    /* An address. */
    TYPST_TAG_LINK = 6,
    /* Raw text. */
    TYPST_TAG_RAW = 7,
    /* A label. */
    TYPST_TAG_LABEL = 8,
    /* A reference. */
    TYPST_TAG_REF = 9,
    /* A heading. */
    TYPST_TAG_HEADING = 10,
    /* What begins an item of a list, an enumeration or a term list. */
    TYPST_TAG_LIST_MARKER = 11,
    /* The term of an item of a term list. */
    TYPST_TAG_LIST_TERM = 12,
    /* The dollar signs of an equation. */
    TYPST_TAG_MATH_DELIMITER = 13,
    /* An operator of an equation, as `^`. */
    TYPST_TAG_MATH_OPERATOR = 14,
    /* Parentheses that only group in an equation. */
    TYPST_TAG_MATH_GROUPING_PARENS = 15,
    /* A keyword, `true` or `false`. */
    TYPST_TAG_KEYWORD = 16,
    /* An operator of code. */
    TYPST_TAG_OPERATOR = 17,
    /* A number, also with a unit. */
    TYPST_TAG_NUMBER = 18,
    /* A string. */
    TYPST_TAG_STRING = 19,
    /* The name of a function where it is called, defined or shown. */
    TYPST_TAG_FUNCTION = 20,
    /* A name of code in markup or in an equation, with its hash. */
    TYPST_TAG_INTERPOLATED = 21,
    /* Text that is no syntax. */
    TYPST_TAG_ERROR = 22
};

/* A node of a tree. Records stand in preorder: after a node stand the records of all that is below it, so its
   first child is the next record, and the next sibling stands `nodes` records on, if the parent's subtree goes
   so far. */
typedef struct typst_node {
    /* The file times 2^48 and the number of the node, or 0 where it has none. */
    uint64_t span;
    /* Its first byte. */
    uint32_t start;
    /* The byte after it. */
    uint32_t end;
    /* Its place among all nodes of the tree, from 0 on. */
    uint32_t number;
    /* How many nodes its subtree has, itself counted. */
    uint32_t nodes;
    /* The place of its parent; of the root 0. */
    uint32_t parent;
    /* One of TYPST_KIND_. */
    uint8_t kind;
    /* One of TYPST_TAG_, or 0 for none. */
    uint8_t tag;
    /* A sum of TYPST_IS_INNER, TYPST_IS_ERROR and TYPST_HAS_REMARKS. */
    uint8_t flags;
    /* Always 0. */
    uint8_t spare;
} typst_node;

/* An error or a warning on a node, or a hint on the last of these before it. */
typedef struct typst_remark {
    /* The place of the node among all nodes. */
    uint32_t node;
    /* The first byte that it is about. */
    uint32_t start;
    /* The byte after these. */
    uint32_t end;
    /* Where its text begins among the messages. */
    uint32_t message;
    /* How many bytes its text has. */
    uint32_t message_len;
    /* TYPST_ERROR, TYPST_WARNING or TYPST_HINT. */
    uint32_t severity;
} typst_remark;

/* How much room all of a source or of a parsed text takes. */
typedef struct typst_sizes {
    /* The bytes of its text. */
    size_t text;
    /* The records of its nodes. */
    size_t nodes;
    /* The records of its remarks. */
    size_t remarks;
    /* The bytes of all messages. */
    size_t messages;
} typst_sizes;

/* How much there is of remarks. */
typedef struct typst_said {
    /* How many there are. */
    size_t remarks;
    /* The bytes of their messages. */
    size_t messages;
} typst_said;

/* A stretch of bytes. */
typedef struct typst_stretch {
    /* Its first byte. */
    size_t start;
    /* The byte after it. */
    size_t end;
} typst_stretch;

/* A place in a text. Lines and columns count from 0. */
typedef struct typst_position {
    /* The line. */
    size_t line;
    /* The characters of the line before the place. */
    size_t column;
    /* The same in UTF-16 units. */
    size_t utf16_column;
    /* The UTF-16 units of the whole text before the place. */
    size_t utf16;
} typst_position;

/* The file and the number of a span. */
#define TYPST_SPAN_FILE(span) ((uint16_t)((uint64_t)(span) >> 48))
#define TYPST_SPAN_NUMBER(span) ((uint64_t)(span) & ((UINT64_C(1) << 48) - 1))

/* A text with its tree, which is kept through edits. */
typedef struct typst_source typst_source;

/* The version of the library, to be compared with TYPST_ABI_VERSION. */
uint32_t typst_abi_version(void);

/* How many kinds there are: those from 0 on. */
size_t typst_kind_count(void);

/* Puts the name that messages have for a kind, as `line comment`, into an array, as many bytes as fit, and
   answers how many there are; 0 where there is no such kind. */
size_t typst_kind_name(uint32_t kind, uint8_t *room, size_t room_length);

/* The kind that messages call so, or UINT32_MAX where there is none. */
uint32_t typst_kind_of(const uint8_t *name, size_t length);

/* Puts the class that a tag has in HTML into an array, and answers how many bytes it has; 0 where there is no
   such tag. */
size_t typst_tag_name(uint32_t tag, uint8_t *room, size_t room_length);

/* Reads a text as TYPST_MARKUP, TYPST_CODE or TYPST_MATH without keeping it. Puts the records of its nodes,
   which have no numbers, into an array, as many as fit, and reports how many there are; typst_parse_all also
   gives the remarks on them. Codes: OK, NO_MEMORY, NOT_UTF8, BAD_ARGUMENT (there is no such mode), TOO_LARGE. */
uint32_t typst_parse(uint32_t mode, const uint8_t *text, size_t length, typst_node *room,
    size_t room_length, size_t *count);

/* Reads a text as typst_parse does, and also puts the remarks on its nodes and their messages into arrays, as
   many as fit. Tells how much room all of these take. Codes: those of typst_parse. */
uint32_t typst_parse_all(uint32_t mode, const uint8_t *text, size_t length, typst_node *room,
    size_t room_length, typst_remark *remarks, size_t remarks_length, uint8_t *messages,
    size_t messages_length, typst_sizes *sizes);

/* Puts a text as HTML into an array, with a span for each tag, as many bytes as fit, and reports how many
   there are. Codes: OK, NO_MEMORY, NOT_UTF8, TOO_LARGE. */
uint32_t typst_highlight_html(const uint8_t *text, size_t length, uint8_t *room, size_t room_length,
    size_t *count);

/* Makes a source of a file's text. Files count from 1. Codes: OK, NO_MEMORY, NOT_UTF8, BAD_ARGUMENT (the file
   is 0), SPAN_NUMBERS, TOO_LARGE. */
uint32_t typst_source_new(uint16_t file, const uint8_t *text, size_t length, typst_source **source);

/* Frees a source, which no call may be given afterwards. */
void typst_source_free(typst_source *source);

/* Makes a copy of a source, which has to be freed, too. Codes: OK, NO_MEMORY. */
uint32_t typst_source_clone(typst_source *source, typst_source **copied);

/* Puts a text in the place of the bytes from `start` to `end`, and reports which bytes of the new text were
   read again. Nodes outside these keep their numbers, unless room was made for new ones. Codes: OK, NO_MEMORY,
   NOT_UTF8, BAD_RANGE (`start` is past `end`, or one of them is within a character or past the text),
   SPAN_NUMBERS, TOO_LARGE. */
uint32_t typst_source_edit(typst_source *source, size_t start, size_t end, const uint8_t *with,
    size_t length, typst_stretch *changed);

/* Makes another text the source's by an edit of what differs, and reports which bytes were read again; 0 to 0
   where the texts are equal. Codes: OK, NO_MEMORY, NOT_UTF8, SPAN_NUMBERS, TOO_LARGE. */
uint32_t typst_source_replace(typst_source *source, const uint8_t *text, size_t length,
    typst_stretch *changed);

/* Reports how much room all of a source takes. Codes: OK, NO_MEMORY, TOO_LARGE. */
uint32_t typst_source_sizes(typst_source *source, typst_sizes *room);

/* Puts the text into an array, as many bytes as fit, and answers how many there are. */
size_t typst_source_text(typst_source *source, uint8_t *room, size_t room_length);

/* Puts the records of all nodes into an array, as many as fit, and reports how many there are. Codes: OK,
   NO_MEMORY, TOO_LARGE. */
uint32_t typst_source_nodes(typst_source *source, typst_node *room, size_t room_length, size_t *count);

/* Does as typst_source_nodes for the nodes that meet a stretch of bytes: each that has a byte of it or touches
   one of its ends, with all nodes above. Their numbers and counts are those that they have in the whole tree.
   Codes: OK, NO_MEMORY, TOO_LARGE. */
uint32_t typst_source_nodes_in(typst_source *source, size_t start, size_t end, typst_node *room,
    size_t room_length, size_t *count);

/* Puts the remarks into an array and their messages into another one, as many as fit, and reports how much
   there is of both. Codes: OK, NO_MEMORY, TOO_LARGE. */
uint32_t typst_source_remarks(typst_source *source, typst_remark *room, size_t room_length,
    uint8_t *messages, size_t messages_length, typst_said *count);

/* Reports whether a node has a span, by 1 or 0, and the bytes of the first one that has; where there is none,
   `range` stays as it is. Code: OK. */
uint32_t typst_source_range(typst_source *source, uint64_t span, uint8_t *found, typst_stretch *range);

/* Reports the line and the columns of a byte. Codes: OK, BAD_RANGE (the byte is within a character or past the
   text). */
uint32_t typst_source_position(typst_source *source, size_t byte, typst_position *position);

/* Reports the byte of a line and a column, which counts TYPST_CHARACTERS, TYPST_UTF16 or TYPST_BYTES. Codes:
   OK, BAD_RANGE (there is no such place), BAD_ARGUMENT (there is no such unit). */
uint32_t typst_source_byte(typst_source *source, size_t line, size_t column, uint32_t unit, size_t *byte);

/* Calls a macro with the number and the name of each kind. */
#define TYPST_KINDS(EACH) \
    EACH(0, End) \
    EACH(1, Error) \
    EACH(2, Shebang) \
    EACH(3, LineComment) \
    EACH(4, BlockComment) \
    EACH(5, Markup) \
    EACH(6, Text) \
    EACH(7, Space) \
    EACH(8, Linebreak) \
    EACH(9, Parbreak) \
    EACH(10, Escape) \
    EACH(11, Shorthand) \
    EACH(12, SmartQuote) \
    EACH(13, Strong) \
    EACH(14, Emph) \
    EACH(15, Raw) \
    EACH(16, RawLang) \
    EACH(17, RawDelim) \
    EACH(18, RawTrimmed) \
    EACH(19, Link) \
    EACH(20, Label) \
    EACH(21, Ref) \
    EACH(22, RefMarker) \
    EACH(23, Heading) \
    EACH(24, HeadingMarker) \
    EACH(25, ListItem) \
    EACH(26, ListMarker) \
    EACH(27, EnumItem) \
    EACH(28, EnumMarker) \
    EACH(29, TermItem) \
    EACH(30, TermMarker) \
    EACH(31, Equation) \
    EACH(32, Math) \
    EACH(33, MathText) \
    EACH(34, MathIdent) \
    EACH(35, MathFieldAccess) \
    EACH(36, MathShorthand) \
    EACH(37, MathAlignPoint) \
    EACH(38, MathCall) \
    EACH(39, MathArgs) \
    EACH(40, MathDelimited) \
    EACH(41, MathAttach) \
    EACH(42, MathPrimes) \
    EACH(43, MathFrac) \
    EACH(44, MathRoot) \
    EACH(45, Hash) \
    EACH(46, LeftBrace) \
    EACH(47, RightBrace) \
    EACH(48, LeftBracket) \
    EACH(49, RightBracket) \
    EACH(50, LeftParen) \
    EACH(51, RightParen) \
    EACH(52, Comma) \
    EACH(53, Semicolon) \
    EACH(54, Colon) \
    EACH(55, Star) \
    EACH(56, Underscore) \
    EACH(57, Dollar) \
    EACH(58, Plus) \
    EACH(59, Minus) \
    EACH(60, Slash) \
    EACH(61, Hat) \
    EACH(62, Dot) \
    EACH(63, Bang) \
    EACH(64, Eq) \
    EACH(65, EqEq) \
    EACH(66, ExclEq) \
    EACH(67, Lt) \
    EACH(68, LtEq) \
    EACH(69, Gt) \
    EACH(70, GtEq) \
    EACH(71, PlusEq) \
    EACH(72, HyphEq) \
    EACH(73, StarEq) \
    EACH(74, SlashEq) \
    EACH(75, Dots) \
    EACH(76, Arrow) \
    EACH(77, Root) \
    EACH(78, Not) \
    EACH(79, And) \
    EACH(80, Or) \
    EACH(81, None) \
    EACH(82, Auto) \
    EACH(83, Let) \
    EACH(84, Set) \
    EACH(85, Show) \
    EACH(86, Context) \
    EACH(87, If) \
    EACH(88, Else) \
    EACH(89, For) \
    EACH(90, In) \
    EACH(91, While) \
    EACH(92, Break) \
    EACH(93, Continue) \
    EACH(94, Return) \
    EACH(95, Import) \
    EACH(96, Include) \
    EACH(97, As) \
    EACH(98, Code) \
    EACH(99, Ident) \
    EACH(100, Bool) \
    EACH(101, Int) \
    EACH(102, Float) \
    EACH(103, Numeric) \
    EACH(104, Str) \
    EACH(105, CodeBlock) \
    EACH(106, ContentBlock) \
    EACH(107, Parenthesized) \
    EACH(108, Array) \
    EACH(109, Dict) \
    EACH(110, Named) \
    EACH(111, Keyed) \
    EACH(112, Unary) \
    EACH(113, Binary) \
    EACH(114, FieldAccess) \
    EACH(115, FuncCall) \
    EACH(116, Args) \
    EACH(117, Spread) \
    EACH(118, Closure) \
    EACH(119, Params) \
    EACH(120, LetBinding) \
    EACH(121, SetRule) \
    EACH(122, ShowRule) \
    EACH(123, Contextual) \
    EACH(124, Conditional) \
    EACH(125, WhileLoop) \
    EACH(126, ForLoop) \
    EACH(127, ModuleImport) \
    EACH(128, ImportItems) \
    EACH(129, ImportItemPath) \
    EACH(130, RenamedImportItem) \
    EACH(131, ModuleInclude) \
    EACH(132, LoopBreak) \
    EACH(133, LoopContinue) \
    EACH(134, FuncReturn) \
    EACH(135, Destructuring) \
    EACH(136, DestructAssignment)

/* Calls a macro with the number and the name of each tag. */
#define TYPST_TAGS(EACH) \
    EACH(1, Comment) \
    EACH(2, Punctuation) \
    EACH(3, Escape) \
    EACH(4, Strong) \
    EACH(5, Emph) \
    EACH(6, Link) \
    EACH(7, Raw) \
    EACH(8, Label) \
    EACH(9, Ref) \
    EACH(10, Heading) \
    EACH(11, ListMarker) \
    EACH(12, ListTerm) \
    EACH(13, MathDelimiter) \
    EACH(14, MathOperator) \
    EACH(15, MathGroupingParens) \
    EACH(16, Keyword) \
    EACH(17, Operator) \
    EACH(18, Number) \
    EACH(19, String) \
    EACH(20, Function) \
    EACH(21, Interpolated) \
    EACH(22, Error)

/* That a compiler lays the records out as the library does. */
#if defined(__cplusplus) && __cplusplus >= 201103L
#define TYPST_HOLDS(what) static_assert(what, #what)
#elif defined(__STDC_VERSION__) && __STDC_VERSION__ >= 201112L
#define TYPST_HOLDS(what) _Static_assert(what, #what)
#endif
#ifdef TYPST_HOLDS
TYPST_HOLDS(sizeof(typst_node) == 32);
TYPST_HOLDS(offsetof(typst_node, span) == 0);
TYPST_HOLDS(offsetof(typst_node, start) == 8);
TYPST_HOLDS(offsetof(typst_node, end) == 12);
TYPST_HOLDS(offsetof(typst_node, number) == 16);
TYPST_HOLDS(offsetof(typst_node, nodes) == 20);
TYPST_HOLDS(offsetof(typst_node, parent) == 24);
TYPST_HOLDS(offsetof(typst_node, kind) == 28);
TYPST_HOLDS(offsetof(typst_node, tag) == 29);
TYPST_HOLDS(offsetof(typst_node, flags) == 30);
TYPST_HOLDS(offsetof(typst_node, spare) == 31);
TYPST_HOLDS(sizeof(typst_remark) == 24);
TYPST_HOLDS(offsetof(typst_remark, node) == 0);
TYPST_HOLDS(offsetof(typst_remark, start) == 4);
TYPST_HOLDS(offsetof(typst_remark, end) == 8);
TYPST_HOLDS(offsetof(typst_remark, message) == 12);
TYPST_HOLDS(offsetof(typst_remark, message_len) == 16);
TYPST_HOLDS(offsetof(typst_remark, severity) == 20);
TYPST_HOLDS(sizeof(typst_sizes) == 32);
TYPST_HOLDS(offsetof(typst_sizes, text) == 0);
TYPST_HOLDS(offsetof(typst_sizes, nodes) == 8);
TYPST_HOLDS(offsetof(typst_sizes, remarks) == 16);
TYPST_HOLDS(offsetof(typst_sizes, messages) == 24);
TYPST_HOLDS(sizeof(typst_said) == 16);
TYPST_HOLDS(offsetof(typst_said, remarks) == 0);
TYPST_HOLDS(offsetof(typst_said, messages) == 8);
TYPST_HOLDS(sizeof(typst_stretch) == 16);
TYPST_HOLDS(offsetof(typst_stretch, start) == 0);
TYPST_HOLDS(offsetof(typst_stretch, end) == 8);
TYPST_HOLDS(sizeof(typst_position) == 32);
TYPST_HOLDS(offsetof(typst_position, line) == 0);
TYPST_HOLDS(offsetof(typst_position, column) == 8);
TYPST_HOLDS(offsetof(typst_position, utf16_column) == 16);
TYPST_HOLDS(offsetof(typst_position, utf16) == 24);
#endif

#ifdef __cplusplus
}
#endif

#endif
