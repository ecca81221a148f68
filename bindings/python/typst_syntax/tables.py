"""Kinds, tags, codes, records and functions of the library. Made by bindings/tables: change bindings/abi.toml."""

from ctypes import Structure, c_size_t, c_uint8, c_uint16, c_uint32, c_uint64, c_void_p
from enum import IntEnum

VERSION = 1


class Code(IntEnum):
    """What a call answers."""

    OK = 0
    NO_MEMORY = 1
    NOT_UTF8 = 2
    BAD_RANGE = 3
    BAD_ARGUMENT = 4
    SPAN_NUMBERS = 5
    TOO_LARGE = 6


class Mode(IntEnum):
    """What a text is read as."""

    MARKUP = 0
    CODE = 1
    MATH = 2


class Flag(IntEnum):
    """What `flags` of a node is the sum of."""

    IS_INNER = 1
    IS_ERROR = 2
    HAS_REMARKS = 4


class Severity(IntEnum):
    """How grave a remark is."""

    ERROR = 1
    WARNING = 2
    HINT = 3


class Unit(IntEnum):
    """What a column counts."""

    CHARACTERS = 0
    UTF16 = 1
    BYTES = 2


class Kind(IntEnum):
    """What a node is."""

    END = 0
    ERROR = 1
    SHEBANG = 2
    LINE_COMMENT = 3
    BLOCK_COMMENT = 4
    MARKUP = 5
    TEXT = 6
    SPACE = 7
    LINEBREAK = 8
    PARBREAK = 9
    ESCAPE = 10
    SHORTHAND = 11
    SMART_QUOTE = 12
    STRONG = 13
    EMPH = 14
    RAW = 15
    RAW_LANG = 16
    RAW_DELIM = 17
    RAW_TRIMMED = 18
    LINK = 19
    LABEL = 20
    REF = 21
    REF_MARKER = 22
    HEADING = 23
    HEADING_MARKER = 24
    LIST_ITEM = 25
    LIST_MARKER = 26
    ENUM_ITEM = 27
    ENUM_MARKER = 28
    TERM_ITEM = 29
    TERM_MARKER = 30
    EQUATION = 31
    MATH = 32
    MATH_TEXT = 33
    MATH_IDENT = 34
    MATH_FIELD_ACCESS = 35
    MATH_SHORTHAND = 36
    MATH_ALIGN_POINT = 37
    MATH_CALL = 38
    MATH_ARGS = 39
    MATH_DELIMITED = 40
    MATH_ATTACH = 41
    MATH_PRIMES = 42
    MATH_FRAC = 43
    MATH_ROOT = 44
    HASH = 45
    LEFT_BRACE = 46
    RIGHT_BRACE = 47
    LEFT_BRACKET = 48
    RIGHT_BRACKET = 49
    LEFT_PAREN = 50
    RIGHT_PAREN = 51
    COMMA = 52
    SEMICOLON = 53
    COLON = 54
    STAR = 55
    UNDERSCORE = 56
    DOLLAR = 57
    PLUS = 58
    MINUS = 59
    SLASH = 60
    HAT = 61
    DOT = 62
    BANG = 63
    EQ = 64
    EQ_EQ = 65
    EXCL_EQ = 66
    LT = 67
    LT_EQ = 68
    GT = 69
    GT_EQ = 70
    PLUS_EQ = 71
    HYPH_EQ = 72
    STAR_EQ = 73
    SLASH_EQ = 74
    DOTS = 75
    ARROW = 76
    ROOT = 77
    NOT = 78
    AND = 79
    OR = 80
    NONE = 81
    AUTO = 82
    LET = 83
    SET = 84
    SHOW = 85
    CONTEXT = 86
    IF = 87
    ELSE = 88
    FOR = 89
    IN = 90
    WHILE = 91
    BREAK = 92
    CONTINUE = 93
    RETURN = 94
    IMPORT = 95
    INCLUDE = 96
    AS = 97
    CODE = 98
    IDENT = 99
    BOOL = 100
    INT = 101
    FLOAT = 102
    NUMERIC = 103
    STR = 104
    CODE_BLOCK = 105
    CONTENT_BLOCK = 106
    PARENTHESIZED = 107
    ARRAY = 108
    DICT = 109
    NAMED = 110
    KEYED = 111
    UNARY = 112
    BINARY = 113
    FIELD_ACCESS = 114
    FUNC_CALL = 115
    ARGS = 116
    SPREAD = 117
    CLOSURE = 118
    PARAMS = 119
    LET_BINDING = 120
    SET_RULE = 121
    SHOW_RULE = 122
    CONTEXTUAL = 123
    CONDITIONAL = 124
    WHILE_LOOP = 125
    FOR_LOOP = 126
    MODULE_IMPORT = 127
    IMPORT_ITEMS = 128
    IMPORT_ITEM_PATH = 129
    RENAMED_IMPORT_ITEM = 130
    MODULE_INCLUDE = 131
    LOOP_BREAK = 132
    LOOP_CONTINUE = 133
    FUNC_RETURN = 134
    DESTRUCTURING = 135
    DESTRUCT_ASSIGNMENT = 136


# The names of the kinds, each at its number.
KIND_NAMES = (
    "End",
    "Error",
    "Shebang",
    "LineComment",
    "BlockComment",
    "Markup",
    "Text",
    "Space",
    "Linebreak",
    "Parbreak",
    "Escape",
    "Shorthand",
    "SmartQuote",
    "Strong",
    "Emph",
    "Raw",
    "RawLang",
    "RawDelim",
    "RawTrimmed",
    "Link",
    "Label",
    "Ref",
    "RefMarker",
    "Heading",
    "HeadingMarker",
    "ListItem",
    "ListMarker",
    "EnumItem",
    "EnumMarker",
    "TermItem",
    "TermMarker",
    "Equation",
    "Math",
    "MathText",
    "MathIdent",
    "MathFieldAccess",
    "MathShorthand",
    "MathAlignPoint",
    "MathCall",
    "MathArgs",
    "MathDelimited",
    "MathAttach",
    "MathPrimes",
    "MathFrac",
    "MathRoot",
    "Hash",
    "LeftBrace",
    "RightBrace",
    "LeftBracket",
    "RightBracket",
    "LeftParen",
    "RightParen",
    "Comma",
    "Semicolon",
    "Colon",
    "Star",
    "Underscore",
    "Dollar",
    "Plus",
    "Minus",
    "Slash",
    "Hat",
    "Dot",
    "Bang",
    "Eq",
    "EqEq",
    "ExclEq",
    "Lt",
    "LtEq",
    "Gt",
    "GtEq",
    "PlusEq",
    "HyphEq",
    "StarEq",
    "SlashEq",
    "Dots",
    "Arrow",
    "Root",
    "Not",
    "And",
    "Or",
    "None",
    "Auto",
    "Let",
    "Set",
    "Show",
    "Context",
    "If",
    "Else",
    "For",
    "In",
    "While",
    "Break",
    "Continue",
    "Return",
    "Import",
    "Include",
    "As",
    "Code",
    "Ident",
    "Bool",
    "Int",
    "Float",
    "Numeric",
    "Str",
    "CodeBlock",
    "ContentBlock",
    "Parenthesized",
    "Array",
    "Dict",
    "Named",
    "Keyed",
    "Unary",
    "Binary",
    "FieldAccess",
    "FuncCall",
    "Args",
    "Spread",
    "Closure",
    "Params",
    "LetBinding",
    "SetRule",
    "ShowRule",
    "Contextual",
    "Conditional",
    "WhileLoop",
    "ForLoop",
    "ModuleImport",
    "ImportItems",
    "ImportItemPath",
    "RenamedImportItem",
    "ModuleInclude",
    "LoopBreak",
    "LoopContinue",
    "FuncReturn",
    "Destructuring",
    "DestructAssignment",
)


class Tag(IntEnum):
    """How a node is to be shown."""

    COMMENT = 1
    PUNCTUATION = 2
    ESCAPE = 3
    STRONG = 4
    EMPH = 5
    LINK = 6
    RAW = 7
    LABEL = 8
    REF = 9
    HEADING = 10
    LIST_MARKER = 11
    LIST_TERM = 12
    MATH_DELIMITER = 13
    MATH_OPERATOR = 14
    MATH_GROUPING_PARENS = 15
    KEYWORD = 16
    OPERATOR = 17
    NUMBER = 18
    STRING = 19
    FUNCTION = 20
    INTERPOLATED = 21
    ERROR = 22


# The names of the tags; that of 0 is empty.
TAG_NAMES = (
    "",
    "Comment",
    "Punctuation",
    "Escape",
    "Strong",
    "Emph",
    "Link",
    "Raw",
    "Label",
    "Ref",
    "Heading",
    "ListMarker",
    "ListTerm",
    "MathDelimiter",
    "MathOperator",
    "MathGroupingParens",
    "Keyword",
    "Operator",
    "Number",
    "String",
    "Function",
    "Interpolated",
    "Error",
)


# Their classes in HTML.
TAG_CLASSES = (
    "",
    "typ-comment",
    "typ-punct",
    "typ-escape",
    "typ-strong",
    "typ-emph",
    "typ-link",
    "typ-raw",
    "typ-label",
    "typ-ref",
    "typ-heading",
    "typ-marker",
    "typ-term",
    "typ-math-delim",
    "typ-math-op",
    "typ-math-group",
    "typ-key",
    "typ-op",
    "typ-num",
    "typ-str",
    "typ-func",
    "typ-pol",
    "typ-error",
)


class NodeRecord(Structure):
    """A node of a tree."""

    _fields_ = [
        ("span", c_uint64),
        ("start", c_uint32),
        ("end", c_uint32),
        ("number", c_uint32),
        ("nodes", c_uint32),
        ("parent", c_uint32),
        ("kind", c_uint8),
        ("tag", c_uint8),
        ("flags", c_uint8),
        ("spare", c_uint8),
    ]


class RemarkRecord(Structure):
    """An error or a warning on a node, or a hint on the last of these before it."""

    _fields_ = [
        ("node", c_uint32),
        ("start", c_uint32),
        ("end", c_uint32),
        ("message", c_uint32),
        ("message_len", c_uint32),
        ("severity", c_uint32),
    ]


class SizesRecord(Structure):
    """How much room all of a source or of a parsed text takes."""

    _fields_ = [
        ("text", c_size_t),
        ("nodes", c_size_t),
        ("remarks", c_size_t),
        ("messages", c_size_t),
    ]


class SaidRecord(Structure):
    """How much there is of remarks."""

    _fields_ = [
        ("remarks", c_size_t),
        ("messages", c_size_t),
    ]


class StretchRecord(Structure):
    """A stretch of bytes."""

    _fields_ = [
        ("start", c_size_t),
        ("end", c_size_t),
    ]


class PositionRecord(Structure):
    """A place in a text."""

    _fields_ = [
        ("line", c_size_t),
        ("column", c_size_t),
        ("utf16_column", c_size_t),
        ("utf16", c_size_t),
    ]


# What each function gives, and what it takes.
FUNCTIONS = {
    "typst_abi_version": (c_uint32, []),
    "typst_kind_count": (c_size_t, []),
    "typst_kind_name": (c_size_t, [c_uint32, c_void_p, c_size_t]),
    "typst_kind_of": (c_uint32, [c_void_p, c_size_t]),
    "typst_tag_name": (c_size_t, [c_uint32, c_void_p, c_size_t]),
    "typst_parse": (c_uint32, [c_uint32, c_void_p, c_size_t, c_void_p, c_size_t, c_void_p]),
    "typst_parse_all": (c_uint32, [c_uint32, c_void_p, c_size_t, c_void_p, c_size_t, c_void_p, c_size_t, c_void_p, c_size_t, c_void_p]),
    "typst_highlight_html": (c_uint32, [c_void_p, c_size_t, c_void_p, c_size_t, c_void_p]),
    "typst_source_new": (c_uint32, [c_uint16, c_void_p, c_size_t, c_void_p]),
    "typst_source_free": (None, [c_void_p]),
    "typst_source_clone": (c_uint32, [c_void_p, c_void_p]),
    "typst_source_edit": (c_uint32, [c_void_p, c_size_t, c_size_t, c_void_p, c_size_t, c_void_p]),
    "typst_source_replace": (c_uint32, [c_void_p, c_void_p, c_size_t, c_void_p]),
    "typst_source_sizes": (c_uint32, [c_void_p, c_void_p]),
    "typst_source_text": (c_size_t, [c_void_p, c_void_p, c_size_t]),
    "typst_source_nodes": (c_uint32, [c_void_p, c_void_p, c_size_t, c_void_p]),
    "typst_source_nodes_in": (c_uint32, [c_void_p, c_size_t, c_size_t, c_void_p, c_size_t, c_void_p]),
    "typst_source_remarks": (c_uint32, [c_void_p, c_void_p, c_size_t, c_void_p, c_size_t, c_void_p]),
    "typst_source_range": (c_uint32, [c_void_p, c_uint64, c_void_p, c_void_p]),
    "typst_source_position": (c_uint32, [c_void_p, c_size_t, c_void_p]),
    "typst_source_byte": (c_uint32, [c_void_p, c_size_t, c_size_t, c_uint32, c_void_p]),
}
